w 2808 80 = ok @ driver.c:10
w 2810 2 = ok @ driver.c:11
w 2818 2 @ driver.c:12
w 100 00008002 = ok
rx @ 0x000055D2A3C01A2B
w 38 1 = ok @ driver.c:15
w 38 2 = ok @ driver.c:16 # 1.500100
