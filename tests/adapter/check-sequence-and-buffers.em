# em_debug --profile adapter
# 2,046 octets and four fill a buffer of 2,048, and two octets lie in the next
link up = ok
w RDBAL 1000 = ok
w RDLEN 80 = ok
poke 1000 0020000000000000 = ok
poke 1010 0028000000000000 = ok
poke 1020 0080000000000000 = ok
w RDT 7 = ok
w RCTL 8022 = ok
arrive FFFFFFFFFFFF5254001234560806 2046 = stored
rx = wrote 0
rx = wrote 1
rx = idle
peek 1000 16 = 00200000000000000008000005000000
peek 1010 16 = 00280000000000000200000007000000
peek 27FE 2 = 3786
peek 2800 3 = 061F00
# the longest frame, of 16,380, fills one of 16,384 = 4000h
w RCTL 02018022 = ok
arrive FFFFFFFFFFFF5254001234560806 16380 = stored
rx = wrote 2
rx = idle
peek 1020 16 = 00800000000000000040000007000000
peek BFFC 5 = B3ABE44E00
