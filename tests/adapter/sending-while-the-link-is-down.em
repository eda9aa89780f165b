# em_debug --profile adapter
# two descriptors with EOP and RS, and a packet of 60 octets
w TDBAL 1000 = ok
w TDLEN 80 = ok
poke 1000 00200000000000003C00000900000000 = ok
poke 1010 00200000000000003C00000900000000 = ok
w TDT 1 = ok
w TCTL 2 = ok
# the link is down: nothing is sent, though a descriptor is the adapter's
tx = idle
r TDH = 00000000
peek 100C 1 = 00
r ICR = 00000000
# nor is the descriptor looked at
w TDBAL FFFF0000 = ok
tx = idle
w TDBAL 1000 = ok
# with LBM 01 it is sent all the same, and a reverse step takes it off the wire
w RCTL 40 = ok
tx = sent 0 60
r TDH = 00000001
back 2 = back 2
w RCTL 0 = ok
tx = idle
# the link comes up
link up = ok
tx = sent 0 60
peek 100C 1 = 01
r TDH = 00000001
# and goes down: what is queued waits
link down = ok
w TDT 2 = ok
tx = idle
# LBM 10, and none of the bits beside it
w RCTL 138 = ok
tx = idle
w RCTL 80 = ok
tx = sent 1 60
# a reverse step takes the link back, too
back 6 = back 6
tx = idle
