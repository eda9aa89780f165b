# em_debug --profile adapter --memory 8K
w MDIC 08220000
r MDIC = 18220141
