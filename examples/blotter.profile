ok
ok
ok
ok
ok
ok
ok
ok
ok
ok
ok
ok
ok
ok
ok
ok
ok
ok
ok
ok
stable 1
worth init 1000
risk init false
best init 100
leader init &acme_price
calls 4
stable 2
calls 0
ok
stable 3
worth change 1000 1010
best change 100 101
calls 3
ok
ok
stable 4
calls 0
ok
stable 5
best change 101 50
leader change &acme_price &bolt_price
calls 0
ok
ok
stable 6
bolt init 0
best change 50 55
calls 1
ok
stable 7
worth change 1010 1560
risk change false true
bolt change 0 550
calls 3
ok
ok
ok
stable 8
worth change 1560 1450
calls 2
ok
ok
stable 9
worth change 1450 1340
bolt change 550 440
calls 3
ok
stable 10
risk init false
calls 0
ok
ok
ok
stable 11
option init 40
calls 2
builds 1
ok
ok
ok
stable 12
first init 40
calls 0
ok
stable 13
worth change 1340 1380
bolt change 440 480
best change 55 60
option change 40 80
first change 40 80
calls 5
ok
stable 14
worth change 1380 1620
bolt change 480 720
risk change false true
option change 80 120
first invalid
calls 5
builds 1
first = invalid
refused 11
