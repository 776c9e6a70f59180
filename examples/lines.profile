ok
refused 3
refused 4
refused 5
refused 6
refused 6
refused 1
ok
refused 7
ok
refused 12
refused 13
refused 11
ok
refused 25
refused 2
refused 1
refused 3
refused 4
refused 5
refused 12
refused 4
refused 7
refused 6
refused 3
refused 1
stable 1
calls 0
