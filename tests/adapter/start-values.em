# em_debug --profile adapter
# at power on; all else is 0, but the first receive address, EECD and the PHY's words
r CTRL = 00140240
r STATUS = 80080781
r VET = 00008100
r LEDCTL = 00000602
r MANC = 00222300
r PBA = 00100030
r EECD = 00000118
r CTRL_EXT = 00000000
r FCAL = 00000000
r RCTL = 00000000
r TCTL = 00000000
r TIPG = 00000000
r RXDCTL = 00000000
r TXDCTL = 00000000
r RXCSUM = 00000000
r WUC = 00000000
r IMS = 00000000
r ICR = 00000000
r VFTA[0] = 00000000
r MTA[127] = 00000000
r RAL1 = 00000000
# STATUS follows the link
link up = ok
r STATUS = 80080783
# what was written is gone with a reset, and each starts anew; PBA keeps what it held
w CTRL 40000000 = ok
w VET 88A8 = ok
w LEDCTL 12345678 = ok
w MANC 0 = ok
w PBA 00080038 = ok
w RCTL 8002 = ok
w TIPG 602008 = ok
w CTRL 04000000 = ok
r CTRL = 00140240
r STATUS = 80080783
r VET = 00008100
r LEDCTL = 00000602
r MANC = 00222300
r PBA = 00080038
r RCTL = 00000000
r TIPG = 00000000
# so does one that was written as 0
w PBA 0 = ok
w CTRL 04000000 = ok
r PBA = 00000000
# a reset that is taken back leaves what was before it
w VET 1234 = ok
w PBA 77 = ok
w CTRL 04000000 = ok
r VET = 00008100
back 2 = back 2
r VET = 00001234
r PBA = 00000077
link down = ok
r STATUS = 80080781
