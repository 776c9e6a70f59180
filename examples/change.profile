ok
ok
ok
ok
ok
stable 1
calls 3
o = 3
ok
stable 2
calls 1
ok
stable 3
calls 2
o = 2
