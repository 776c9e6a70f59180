ok
ok
ok
ok
ok
stable 1
calls 4
o = 18
p = 91
ok
stable 2
calls 4
p = 89
ok
ok
ok
ok
ok
stable 3
calls 4
q = "a\"bc"
r = "a\"ba\"bcd"
