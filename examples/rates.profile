ok
ok
ok
ok
ok
stable 1
calls 2
rate = 300
interest = 7500
ok
stable 2
calls 0
interest = 7500
ok
stable 3
calls 2
rate = 325
interest = 8125
ok
stable 4
calls 2
rate = 350
ok
stable 5
calls 2
rate = 325
ok
stable 6
calls 0
interest = 8125
refused 1
ok
ok
ok
ok
ok
ok
stable 7
calls 0
builds 1
word = "shut"
flat = true
paid = 1
ok
stable 8
calls 0
word = "shut"
paid = 2
refused 17
refused 17
refused 6
