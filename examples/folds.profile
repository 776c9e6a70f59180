ok
ok
ok
ok
stable 1
calls 3
o = 16
ok
stable 2
calls 3
o = 20
ok
stable 3
calls 0
ok
ok
stable 4
calls 6
p = 40
ok
ok
stable 5
calls 0
q = -7
refused 6
refused 6
refused 6
refused 6
refused 6
refused 5
refused 4
refused 1
ok
ok
ok
stable 6
calls 0
r = "[a, b] from \"s\""
ok
ok
ok
stable 7
calls 0
refused 11
