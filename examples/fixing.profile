ok
ok
ok
ok
ok
ok
ok
ok
ok
ok
stable 1
fixing init 0
payment init 0
calls 1
ok
ok
stable 2
calls 0
ok
ok
stable 3
fixing change 0 1092
payment change 0 24000
calls 3
payment = 24000
ok
ok
stable 4
calls 0
ok
stable 5
payment change 24000 36000
calls 1
payment = 36000
