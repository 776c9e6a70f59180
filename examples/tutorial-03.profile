ok
ok
ok
ok
ok
ok
stable 1
calls 0
ok
stable 2
calls 0
ok
stable 3
calls 2
o = 15
