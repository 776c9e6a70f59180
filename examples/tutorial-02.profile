ok
ok
ok
ok
ok
ok
ok
stable 1
calls 3
ok
stable 2
calls 2
ok
stable 3
calls 0
ok
ok
stable 4
calls 2
o = 0
