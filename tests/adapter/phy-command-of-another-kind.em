# em_debug --profile adapter
# OP 00b and 11b do nothing, and are ready
w MDIC 0024FFFF = ok
r MDIC = 1024FFFF
w MDIC 08240000 = ok
r MDIC = 18240DE1
w MDIC 0C24FFFF = ok
r MDIC = 1C24FFFF
w MDIC 08240000 = ok
r MDIC = 18240DE1
# R, E and bit 31 are the adapter's
w MDIC D8220000 = ok
r MDIC = 18220141
