# em_debug --memory 4096 --budget 65536 --mac 020000000001
r 00005400 = 00000002 @ a.c:5
r 00005404 = 80000100 @ a.c:6
poke 0000000000001000 AB = refused Range @ a.c:7
w 000000D0 00000004 = ok @ a.c:9
back 1 = back 1 @ a.c:10
w 000000D0 0000