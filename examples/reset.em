# A reset is an event like any other: it is taken back whole.
# The multicast table's first word, a cause and the mask are set; then CTRL is written with RST.
w 05200 FFFFFFFF
w 000C8 00000004
w 000D0 00000004
w 00000 04000000
regs
# One step back, and all of it is there again.
back
regs
