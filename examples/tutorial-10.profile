ok
ok
ok
ok
ok
stable 1
s init 4
calls 1
ok
stable 2
s change 4 3
calls 1
ok
ok
stable 3
calls 1
refused 4
refused 7
refused 11
