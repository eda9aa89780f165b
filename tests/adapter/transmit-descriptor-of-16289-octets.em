# em_debug --profile adapter
# one descriptor has at most 16,288 octets
link up = ok
w TDBAL 1000 = ok
w TDLEN 80 = ok
poke 1000 0020000000000000A03F000100000000 = ok
poke 1010 0020000000000000A13F000100000000 = ok
w TDT 2 = ok
w TCTL 2 = ok
tx = sent 0 16288
tx = refused TooLong
r TDH = 00000001
# and those of a frame 16,380
poke 1010 00200000000000005D00000000000000 = ok
poke 1020 0020000000000000A03F000100000000 = ok
w TDT 3 = ok
tx = fetched 1
tx = refused TooLong
back 2 = back 2
poke 1010 00200000000000005C00000000000000 = ok
w TDT 3 = ok
tx = fetched 1
tx = sent 2 16380
