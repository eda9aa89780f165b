# em_debug --profile adapter
# without SECRC: 60 octets, and four behind them, which are 64 = 40h
link up = ok
w RDBAL 1000 = ok
w RDLEN 80 = ok
poke 1000 0020000000000000 = ok
poke 1010 0028000000000000 = ok
poke 1020 0030000000000000 = ok
w RDT 7 = ok
w RCTL 8002 = ok
arrive FFFFFFFFFFFF5254001234560806 60 = stored
rx = wrote 0
peek 1000 16 = 00200000000000004000000007000000
peek 2000 14 = FFFFFFFFFFFF5254001234560806
peek 203C 5 = 31DAEA3300
# the counters are those of the frame as it came, L = 64
r GORCL = 00000040
r PRC64 = 00000001
# with SECRC
w RCTL 04008002 = ok
arrive FFFFFFFFFFFF5254001234560806 60 = stored
rx = wrote 1
peek 1010 16 = 00280000000000003C00000007000000
peek 283C 4 = 00000000
r GORCL = 00000080
# it is asked when a frame arrives, and not when it is handed out
w RCTL 8002 = ok
arrive FFFFFFFFFFFF5254001234560806 61 = stored
w RCTL 04008002 = ok
rx = wrote 2
peek 1020 16 = 00300000000000004100000007000000
peek 303D 4 = 6D05EF83
