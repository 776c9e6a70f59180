ok
ok
ok
ok
ok
ok
ok
stable 1
calls 2
o = 101
ok
stable 2
calls 3
o = 103
ok
stable 3
calls 2
o = 101
ok
stable 4
calls 2
o = 102
