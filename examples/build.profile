ok
ok
ok
ok
ok
ok
ok
ok
ok
ok
ok
ok
ok
ok
ok
ok
ok
ok
ok
ok
ok
stable 1
goal init "mainapi1-Olistapi1-O"
object init "listapi1-O"
calls 8
size = 9
ok
stable 2
goal change "mainapi1-Olistapi1-O" "main2api1-Olistapi1-O"
calls 4
ok
stable 3
calls 2
size = 14
ok
stable 4
goal change "main2api1-Olistapi1-O" "main2api2-Olistapi2-O"
object change "listapi1-O" "listapi2-O"
calls 8
ok
stable 5
calls 0
ok
stable 6
goal change "main2api2-Olistapi2-O" "test2api2-Olistapi2-O"
calls 4
ok
stable 7
goal change "test2api2-Olistapi2-O" "test2api2-glistapi2-g"
object change "listapi2-O" "listapi2-g"
calls 4
ok
stable 8
goal change "test2api2-glistapi2-g" "test2api2-Olistapi2-O"
object change "listapi2-g" "listapi2-O"
calls 4
ok
ok
stable 9
calls 0
