# em_debug --budget 65664 --profile adapter
# 65,536 of a reset, 32 of a write, and 32 + 60 + 4
link up = ok
w CTRL 04000000 = ok
w RCTL 8002 = ok
arrive FFFFFFFFFFFF5254001234560806 60 = stored
back 9 = back 3
# one octet more, and the reset's record goes
w CTRL 04000000 = ok
w RCTL 8002 = ok
arrive FFFFFFFFFFFF5254001234560806 61 = stored
back 9 = back 2
# with SECRC four octets more
link up = ok
w CTRL 04000000 = ok
w RCTL 04008002 = ok
arrive FFFFFFFFFFFF5254001234560806 64 = stored
back 9 = back 3
w CTRL 04000000 = ok
w RCTL 04008002 = ok
arrive FFFFFFFFFFFF5254001234560806 65 = stored
back 9 = back 2
