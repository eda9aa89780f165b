# em_debug --profile adapter
# PHY 2 is not there: E, R, and what was written; nothing is stored, and nothing read
w MDIC 04441234 = ok
r MDIC = 54441234
w MDIC 08240000 = ok
r MDIC = 18240DE1
w MDIC 08421234 = ok
r MDIC = 58421234
# nor PHY 0, 3 or 17
w MDIC 08020000 = ok
r MDIC = 58020000
w MDIC 08620000 = ok
r MDIC = 58620000
w MDIC 0A220000 = ok
r MDIC = 5A220000
# E goes with the next command
w MDIC 08220000 = ok
r MDIC = 18220141
