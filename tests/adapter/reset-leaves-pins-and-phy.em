# em_debug --profile adapter
# a word of the PHY, and five bits of a command to the EEPROM with REQ
w MDIC 04241234 = ok
w EECD 42 = ok
w EECD 46 = ok
w EECD 47 = ok
w EECD 46 = ok
w EECD 47 = ok
w EECD 42 = ok
w EECD 43 = ok
w EECD 42 = ok
w EECD 43 = ok
w EECD 42 = ok
w EECD 43 = ok
w CTRL 04000000 = ok
r MDIC = 14241234
r EECD = 000001CB
w MDIC 08240000 = ok
r MDIC = 18241234
# four more, and word 0 comes
w EECD 42 = ok
w EECD 43 = ok
w EECD 42 = ok
w EECD 43 = ok
w EECD 42 = ok
w EECD 43 = ok
w EECD 42 = ok
w EECD 43 = ok
r EECD = 000001C3
w EECD 42 = ok
r EECD = 000001C2
w CTRL 04000000 = ok
w EECD 43 = ok
w EECD 42 = ok
r EECD = 000001CA
