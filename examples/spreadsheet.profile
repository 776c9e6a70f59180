ok
ok
ok
ok
ok
ok
ok
ok
ok
ok
ok
ok
ok
ok
ok
ok
ok
ok
ok
ok
ok
ok
ok
ok
ok
ok
ok
ok
ok
ok
ok
ok
stable 1
b3 init 40
c3 init 40
d3 init 60
e3 init 140
e4 init 28
calls 13
ok
stable 2
c3 change 40 25
e3 change 140 125
e4 change 28 25
calls 8
ok
ok
stable 3
d3 change 60 58
e3 change 125 123
e4 change 25 24
calls 10
ok
stable 4
c3 change 25 50
d3 change 58 86
e3 change 123 176
e4 change 24 35
calls 11
ok
ok
stable 5
calls 1
ok
ok
stable 6
e3 change 176 363
e4 change 35 72
calls 5
ok
stable 7
e3 change 363 176
e4 change 72 35
calls 4
ok
ok
refused 20 cycle d2_formula d3 d2_formula
refused 22 20
