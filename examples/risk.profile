ok
ok
ok
ok
ok
ok
ok
ok
ok
ok
ok
ok
ok
ok
ok
ok
ok
ok
ok
ok
ok
ok
ok
ok
ok
ok
ok
ok
ok
ok
ok
ok
ok
ok
stable 1
alarm_shown init false
share_shown init 35
calls 25
gross_shown = 3236200
net_shown = 1386200
ok
stable 2
share_shown change 35 36
calls 16
gross_shown = 3260200
ok
stable 3
share_shown change 36 37
calls 17
net_shown = 1523600
ok
stable 4
alarm_shown change false true
share_shown change 37 58
calls 19
ok
stable 5
alarm_shown change true false
share_shown change 58 37
calls 19
ok
stable 6
calls 4
builds 1
detail_shown = 304720
ok
stable 7
calls 4
builds 1
detail_shown = 533260
ok
stable 8
calls 0
ok
stable 9
calls 0
detail_shown = 0
