ok
ok
ok
ok
ok
ok
stable 1
basket init 0
calls 0
ok
ok
ok
stable 2
basket change 0 238
calls 3
basket = 238
ok
stable 3
basket change 238 240
calls 3
basket = 240
ok
stable 4
basket change 240 140
calls 2
ok
ok
stable 5
basket change 140 47
calls 2
basket = 47
refused 23
ok
stable 6
calls 2
stable 7
calls 0
ok
ok
ok
ok
stable 8
calls 2
all = 48
ok
refused 20 cycle total basket all total
refused 22 20
refused 22 20
