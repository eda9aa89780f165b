# em_debug --profile adapter
w 00000010 42
w 00000038 1
