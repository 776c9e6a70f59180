ok
ok
ok
ok
ok
stable 1
calls 3
ok
stable 2
calls 3
o = -6
