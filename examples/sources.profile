ok
ok
ok
ok
ok
ok
ok
ok
ok
ok
stable 1
calls 2
price = 100
source = &near
ok
stable 2
calls 0
ok
stable 3
calls 0
price = 100
ok
stable 4
calls 2
price = 107
source = &far
ok
stable 5
calls 0
ok
stable 6
calls 2
price = 106
ok
ok
stable 7
calls 2
price = 98
source = &near
ok
ok
stable 8
calls 0
ok
ok
ok
ok
ok
ok
stable 9
calls 2
best = 106
auto = &far
ok
stable 10
calls 4
best = 100
auto = &near
ok
stable 11
calls 0
best = 100
ok
ok
stable 12
calls 0
quote = 100
refused 6
refused 6
refused 4
refused 6
refused 6
refused 6
refused 6
ok
ok
ok
stable 13
calls 0
is_wide = false
