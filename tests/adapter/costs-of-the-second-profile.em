# em_debug --budget 65568 --profile adapter
# a reset costs 65,536, so 32 more are there: each access costs these
w CTRL 04000000 = ok
r 4 = 00000000
back 9 = back 2
w CTRL 04000000 = ok
w 4 1 = ok
back 9 = back 2
w CTRL 04000000 = ok
w EECD 42 = ok
back 9 = back 2
w CTRL 04000000 = ok
w MDIC 24241234 = ok
back 9 = back 2
# two of them, and the reset's record goes
w CTRL 04000000 = ok
r 4 = 00000000
w 4 1 = ok
back 9 = back 2
w CTRL 04000000 = ok
w EECD 42 = ok
w MDIC 24241234 = ok
back 9 = back 2
