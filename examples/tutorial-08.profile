ok
ok
ok
ok
ok
stable 1
calls 2
ok
stable 2
calls 2
ok
stable 3
calls 2
f = 2
ok
stable 4
calls 0
f = 2
