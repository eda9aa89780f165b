# em_debug --profile adapter --memory 8K
w 00000020 08220000
r 00000020
r 00000020
