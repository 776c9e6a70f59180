ok
ok
ok
ok
ok
ok
ok
ok
ok
ok
ok
ok
ok
stable 1
calls 10
acme = 104
bolt = 98
best = 104
ok
stable 2
calls 3
acme = 104
bolt = 98
best = 104
ok
stable 3
calls 5
acme = 0
bolt = 98
best = 98
ok
stable 4
calls 5
acme = 0
bolt = 99
best = 99
ok
stable 5
calls 3
acme = 0
bolt = 99
best = 99
ok
stable 6
calls 5
acme = 107
bolt = 99
best = 107
ok
stable 7
calls 5
acme = 107
bolt = 0
best = 107
ok
stable 8
calls 5
acme = 103
bolt = 0
best = 103
ok
stable 9
calls 0
acme = 103
bolt = 0
best = 103
refused 4
stable 10
calls 0
acme = 103
bolt = 0
best = 103
