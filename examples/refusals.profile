ok
ok
ok
ok
ok
refused 1
refused 1
refused 1
refused 1
refused 1
refused 3
refused 3
refused 4
refused 1
refused 1
refused 1
refused 1
refused 3
refused 3
refused 3
refused 3
refused 3
refused 3
refused 3
refused 3
refused 12
refused 4
refused 4
refused 4
refused 4
refused 4
refused 4
refused 4
refused 4
refused 4
refused 4
refused 4
refused 4
refused 4
refused 4
refused 11
refused 5
refused 5
refused 5
refused 5
refused 5
refused 5
refused 14
refused 5
refused 14
refused 7
refused 7
refused 7
refused 6
refused 6
refused 6
refused 6
refused 6
refused 6
refused 6
refused 6
refused 6
refused 6
refused 6
refused 6
refused 6
refused 6
refused 6
refused 16
refused 16
refused 16
refused 17
refused 18
refused 16
refused 16
ok
refused 16
refused 16
refused 15
refused 1
refused 1
refused 25
refused 25
refused 25
refused 25
ok
ok
ok
ok
ok
ok
ok
ok
stable 1
calls 0
seen = 6
new = 6
