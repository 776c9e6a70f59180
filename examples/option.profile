ok
ok
ok
ok
ok
ok
ok
ok
ok
ok
ok
stable 1
calls 3
worth = 12
ok
ok
stable 2
calls 3
worth = 19
ok
stable 3
calls 0
worth = 19
ok
stable 4
calls 1
worth = 12
ok
option = 12
stable 5
calls 1
option = 0
ok
stable 6
calls 0
worth = 0
refused 15
refused 16
refused 16
refused 16
