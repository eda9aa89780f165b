# em_debug --profile adapter
# the tag is taken out, and the sequence is that of all 64 octets as they came
link up = ok
w VET 8100 = ok
w CTRL 40000000 = ok
w RDBAL 1000 = ok
w RDLEN 80 = ok
poke 1000 0020000000000000 = ok
w RDT 7 = ok
w RCTL 8002 = ok
arrive FFFFFFFFFFFF525400123456810000070800 64 = stored
rx = wrote 0
peek 1000 16 = 0020000000000000400000000F000700
peek 2000 14 = FFFFFFFFFFFF5254001234560800
peek 203C 4 = B3E2E316
