ok
ok
ok
ok
ok
ok
ok
ok
ok
ok
ok
refused 9
stable 1
calls 7
builds 1
worth = 4075
risk = 400
ok
ok
ok
stable 2
calls 2
percent = 9
ok
stable 3
calls 8
worth = 4625
risk = 440
percent = 9
ok
stable 4
calls 3
builds 1
risk = 1156
percent = invalid
ok
stable 5
calls 2
builds 1
risk = 440
percent = invalid
ok
ok
ok
stable 6
calls 2
again = 9
ok
stable 7
calls 0
refused 8
ok
refused 9
ok
ok
ok
stable 8
calls 1
builds 2
pick = 4400
ok
stable 9
calls 1
builds 2
pick = 225
ok
stable 10
calls 4
builds 2
pick = 232
risk = 660
again = invalid
