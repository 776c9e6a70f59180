ok
ok
ok
ok
ok
ok
stable 1
calls 2
west = 42
ok
ok
stable 2
calls 1
west = 41
ok
ok
stable 3
calls 1
west = 42
ok
ok
ok
ok
stable 4
calls 2
west = 52
ok
refused 20 cycle east west east
refused 22 20
refused 22 20
refused 22 20
refused 22 20
refused 22 20
refused 1
