# em_debug --profile adapter
# word 4, and no other
w MDIC 04241234 = ok
r MDIC = 14241234
w MDIC 08240000 = ok
r MDIC = 18241234
w MDIC 08250000 = ok
r MDIC = 182501E0
# what stood in DATA does not matter to a read
w MDIC 0824FFFF = ok
r MDIC = 18241234
# words 1, 2, 3 and 17 can't be written
w MDIC 0421FFFF = ok
r MDIC = 1421FFFF
w MDIC 08210000 = ok
r MDIC = 18217949
w MDIC 0422FFFF = ok
w MDIC 08220000 = ok
r MDIC = 18220141
w MDIC 0423FFFF = ok
w MDIC 08230000 = ok
r MDIC = 18230C20
w MDIC 0431FFFF = ok
w MDIC 08310000 = ok
r MDIC = 1831A800
# those beside them can
w MDIC 0425FFFF = ok
w MDIC 08250000 = ok
r MDIC = 1825FFFF
w MDIC 0430FFFF = ok
w MDIC 08300000 = ok
r MDIC = 1830FFFF
w MDIC 0432FFFF = ok
w MDIC 08320000 = ok
r MDIC = 1832FFFF
w MDIC 043FFFFF = ok
w MDIC 083F0000 = ok
r MDIC = 183FFFFF
# in word 0 bits 15 and 9 clear themselves
w MDIC 0420FFFF = ok
r MDIC = 1420FFFF
w MDIC 08200000 = ok
r MDIC = 18207DFF
# and change no other word
w MDIC 04208200 = ok
w MDIC 08200000 = ok
r MDIC = 18200000
w MDIC 08240000 = ok
r MDIC = 18241234
w MDIC 08250000 = ok
r MDIC = 1825FFFF
