# em_debug --profile adapter
# a frame that is too long is a bad one, which SBP lets pass
link up = ok
w RCTL 8006 = ok
arrive FFFFFFFFFFFF5254001234560806 1518 = stored
arrive FFFFFFFFFFFF5254001234560806 1519 = stored
arrive FFFFFFFFFFFF5254001234560806 16380 = stored
# never one above 16,384 with its check sequence, nor one that is too short
arrive FFFFFFFFFFFF5254001234560806 16381 = dropped oversize
arrive FFFFFFFFFFFF5254001234560806 59 = dropped undersize
r ROC = 00000001
r RUC = 00000001
# SBP is no other bit
w RCTL 8003 = ok
arrive FFFFFFFFFFFF5254001234560806 1519 = dropped oversize
w RCTL 800A = ok
arrive FFFFFFFFFFFF5254001234560806 1519 = dropped oversize
w RCTL 8002 = ok
arrive FFFFFFFFFFFF5254001234560806 1519 = dropped oversize
# LPE alone does the same
w RCTL 8022 = ok
arrive FFFFFFFFFFFF5254001234560806 1519 = stored
# the address filter stands before it
w RCTL 6 = ok
arrive FFFFFFFFFFFF5254001234560806 60 = dropped rejected
r ROC = 00000003
