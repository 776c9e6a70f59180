ok
ok
ok
stable 1
calls 1
o = 7
ok
refused 11
refused 11
ok
stable 2
calls 0
ok
refused 12
refused 13
stable 3
calls 0
o = 9
ok
ok
stable 4
calls 1
ok
refused 11
q = 13
ok
ok
stable 5
calls 0
r = 13
ok
ok
ok
stable 6
calls 0
refused 11
refused 11
refused 11
refused 1
refused 1
