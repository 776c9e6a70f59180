ok
ok
ok
ok
ok
ok
ok
ok
ok
ok
ok
ok
ok
ok
ok
stable 1
n init 1
c init true
t init "a text that is too long to be kept without memory of its own"
h init &t
said init "it says: a text that is too long to be kept without memory of its own"
calls 1
ok
ok
ok
stable 2
n change 1 2
c change true false
t change "a text that is too long to be kept without memory of its own" "another \"text\" with a \\"
said change "it says: a text that is too long to be kept without memory of its own" "it says: another \"text\" with a \\"
calls 1
ok
ok
stable 3
h change &t &u
calls 0
ok
ok
ok
stable 4
b init "2it says: another \"text\" with a \\"
calls 2
builds 1
ok
ok
ok
ok
ok
ok
ok
ok
ok
stable 5
r init "2it says: another \"text\" with a \\"
k init &r
j init "2it says: another \"text\" with a \\"
calls 0
ok
stable 6
n change 2 3
b change "2it says: another \"text\" with a \\" "3it says: another \"text\" with a \\"
r invalid
j invalid
calls 2
builds 1
ok
ok
ok
stable 7
t change "another \"text\" with a \\" ""
said change "it says: another \"text\" with a \\" "it says: "
b change "3it says: another \"text\" with a \\" "3it says: "
late init invalid
calls 2
ok
stable 8
k change &r &said
j change invalid "it says: "
calls 0
ok
ok
ok
ok
ok
stable 9
n change 3 2
said change "it says: " "it says: back"
b change "3it says: " "2it says: back"
j change "it says: " "it says: back"
calls 3
builds 1
said = "it says: back"
h = &u
j = "it says: back"
k = &said
ok
refused 20 cycle j j
refused 22 20
