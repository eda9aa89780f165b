# em_debug --profile adapter
# at power on FWE is 01b, nothing is read, and an EEPROM is there
r EECD = 00000118
# v AND 77h, with DO, with GNT where REQ is, and with PRES
w EECD FFFFFFFF = ok
r EECD = 000001FF
w EECD 0 = ok
r EECD = 00000108
w EECD 88 = ok
r EECD = 00000108
w EECD 1 = ok
r EECD = 00000109
w EECD 2 = ok
r EECD = 0000010A
w EECD 4 = ok
r EECD = 0000010C
w EECD 10 = ok
r EECD = 00000118
w EECD 20 = ok
r EECD = 00000128
w EECD 40 = ok
r EECD = 000001C8
w EECD FFFFFF00 = ok
r EECD = 00000108
