ok
ok
ok
ok
ok
ok
ok
ok
stable 1
calls 2
ok
stable 2
calls 0
b = 1
ok
stable 3
calls 2
i = 7
ok
stable 4
calls 2
i = 8
e = true
b = 12
