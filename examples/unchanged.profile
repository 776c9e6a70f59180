ok
ok
ok
refused 13
stable 1
calls 1
o = 7
ok
o = 7
stable 2
calls 1
o = 9
ok
stable 3
calls 0
