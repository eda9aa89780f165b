# em_debug --profile adapter
w MDIC 08220000
