ok
ok
ok
ok
ok
ok
ok
stable 1
calls 6
ok
stable 2
calls 6
t = 1480
m = 900
