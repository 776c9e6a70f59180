ok
ok
ok
ok
ok
ok
ok
stable 1
filled init -4
calls 3
ok
stable 2
filled change -4 1
calls 3
ok
stable 3
calls 2
room = 3
filled = 1
ok
ok
ok
stable 4
calls 2
ok
stable 5
calls 1
ok
stable 6
calls 0
ok
ok
stable 7
calls 0
silent = false
raised = 1
ok
ok
stable 8
calls 0
filled = 1
refused 14
refused 14
refused 6
refused 5
