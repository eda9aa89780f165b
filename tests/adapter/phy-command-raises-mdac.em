# em_debug --profile adapter
# with I, and only with it
w MDIC 08220000 = ok
r ICR = 00000000
w MDIC 28220000 = ok
r MDIC = 38220141
r ICR = 00000200
r ICR = 00000000
# a write too, and any other command
w MDIC 24241234 = ok
r ICR = 00000200
w MDIC 20240000 = ok
r ICR = 00000200
w MDIC 28420000 = ok
r ICR = 00000200
# the mask lets it through
w IMS 200 = ok
line = 0
w MDIC 28220000 = ok
line = 1
r ICR = 00000200
line = 0
# it comes beside other causes
w ICS 4 = ok
w MDIC 28220000 = ok
r ICR = 00000204
