ok
ok
ok
ok
ok
ok
ok
ok
ok
ok
ok
ok
ok
stable 1
bid init 0
ask init 1000000
trade init 0
calls 3
bid = 0
ask = 1000000
ok
ok
ok
ok
ok
ok
ok
ok
ok
ok
stable 2
bid change 0 9900
ask change 1000000 10000
calls 7
gap = 100
ok
stable 3
calls 2
ok
stable 4
bid change 9900 9880
calls 3
gap = 120
ok
stable 5
ask change 10000 9960
calls 4
gap = 80
ok
ok
stable 6
bid change 9880 9970
trade change 0 9960
calls 5
trade = 9960
ok
ok
stable 7
bid change 9970 9880
ask change 9960 10000
calls 3
gap = 120
trade = 9960
refused 23
refused 10
