# em_debug --profile adapter
# sizes and classes are those of the frame as it came
link up = ok
w RCTL 8002 = ok
arrive FFFFFFFFFFFF5254001234560806 59 = dropped undersize
arrive FFFFFFFFFFFF5254001234560806 60 = stored
arrive FFFFFFFFFFFF5254001234560806 1518 = stored
arrive FFFFFFFFFFFF5254001234560806 1519 = dropped oversize
r PRC64 = 00000001
r PRC1522 = 00000001
r PRC127 = 00000000
