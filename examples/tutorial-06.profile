ok
ok
ok
ok
stable 1
calls 2
builds 1
ok
stable 2
calls 1
ok
stable 3
calls 3
builds 1
o = 60
ok
ok
stable 4
calls 0
b = 60
ok
stable 5
calls 2
builds 1
o = 20
b = invalid
