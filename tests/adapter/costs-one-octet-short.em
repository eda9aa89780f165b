# em_debug --budget 65599 --profile adapter
# two accesses cost 64, and with a reset one octet more than there is
w CTRL 04000000 = ok
r 4 = 00000000
back 9 = back 2
w CTRL 04000000 = ok
r 4 = 00000000
r EECD = 00000118
back 9 = back 2
w CTRL 04000000 = ok
w 4 1 = ok
w MDIC 24241234 = ok
back 9 = back 2
w CTRL 04000000 = ok
w EECD 42 = ok
r MDIC = 00000000
back 9 = back 2
