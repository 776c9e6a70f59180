ok
ok
ok
ok
ok
ok
ok
ok
ok
ok
ok
ok
ok
ok
stable 1
calls 17
label = "gold 1950"
price = 1950
left = 0
ok
ok
stable 2
calls 6
label = "gold 1950"
left = -2
ok
stable 3
calls 15
label = "gold 1970"
price = 0
ok
ok
stable 4
calls 15
label = "gold 0"
price = 0
left = 3
