ok
ok
ok
ok
ok
ok
stable 1
calls 3
builds 1
beat = 0
spread = 100
ok
stable 2
calls 0
beat = 0
ok
stable 3
calls 3
builds 1
beat = 1
spread = 99
ok
ok
stable 4
calls 0
builds 1
open = 1
ok
stable 5
calls 3
builds 2
beat = 4
spread = 104
open = 45000000000
ok
stable 6
calls 0
open = 46000000000
ok
stable 7
calls 0
open = 46000000000
ok
ok
ok
ok
stable 8
calls 0
ok
stable 9
calls 0
beat = 14
refused 14
refused 18
ok
ok
stable 10
calls 0
clock = 146000000000
