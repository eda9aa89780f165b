# em_debug --profile adapter
# words 1 and 17 say that there is a link: 7949 + 24, A800 + 400
w MDIC 08210000 = ok
r MDIC = 18217949
link up = ok
# what MDIC holds stays
r MDIC = 18217949
w MDIC 08210000 = ok
r MDIC = 1821796D
w MDIC 08310000 = ok
r MDIC = 1831AC00
# no other word does
w MDIC 08200000 = ok
r MDIC = 18201140
w MDIC 08220000 = ok
r MDIC = 18220141
w MDIC 08300000 = ok
r MDIC = 18300360
link down = ok
w MDIC 08210000 = ok
r MDIC = 18217949
w MDIC 08310000 = ok
r MDIC = 1831A800
