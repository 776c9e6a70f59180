ok
ok
ok
ok
ok
ok
ok
ok
ok
ok
stable 1
calls 128
low = 1
ok
ok
ok
ok
ok
stable 2
calls 128
low = 2
ok
refused 21 height n129
refused 22 21
refused 22 21
refused 22 21
refused 22 21
refused 22 21
refused 22 21
refused 1
refused 1
refused 1
refused 25
refused 2
