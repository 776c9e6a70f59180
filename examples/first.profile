ok
ok
ok
stable 1
calls 1
o = 7
