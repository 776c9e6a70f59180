ok
refused 3
refused 3
refused 3
ok
ok
ok
ok
ok
ok
refused 3
refused 3
refused 3
refused 3
refused 3
ok
refused 3
ok
ok
refused 3
refused 3
refused 3
ok
stable 1
calls 0
o = 4
ok
stable 2
calls 0
p = -2
refused 1
refused 1
refused 1
refused 1
refused 1
refused 1
refused 1
refused 1
refused 1
refused 1
refused 1
refused 1
refused 1
refused 1
refused 1
refused 1
refused 1
refused 1
refused 1
refused 1
refused 1
refused 1
refused 1
refused 1
refused 1
refused 1
refused 1
refused 1
refused 1
refused 1
refused 1
refused 1
refused 1
refused 1
refused 1
refused 1
refused 1
refused 1
refused 1
ok
stable 3
calls 0
o = 7
ok
stable 4
calls 0
o = -7
ok
stable 5
calls 0
o = 0
ok
stable 6
calls 0
o = 1
ok
stable 7
calls 0
o = 9223372036854775807
refused 1
ok
stable 8
calls 0
o = -9223372036854775808
refused 1
refused 1
refused 1
refused 1
refused 1
ok
ok
stable 9
calls 0
t = "a\"b\\c"
refused 25
refused 25
refused 25
refused 25
refused 25
refused 25
refused 25
refused 25
refused 25
refused 25
refused 25
refused 25
refused 25
refused 25
refused 25
refused 25
refused 1
refused 1
refused 1
refused 1
refused 1
refused 1
refused 1
refused 1
refused 1
refused 1
refused 1
refused 1
refused 1
refused 1
refused 1
refused 1
refused 1
refused 1
refused 1
refused 25
refused 1
refused 25
refused 25
refused 25
refused 1
refused 1
refused 25
refused 1
refused 1
