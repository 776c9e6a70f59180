ok
ok
ok
stable 1
calls 1
o = 80
ok
o = 80
stable 2
calls 1
o = 90
