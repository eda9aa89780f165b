# A driver sets up a receive ring, and hears nothing. docs/debugger.md asks why.
link up
poke 1000 00200000000000000000000000000000
w 02800 00001000
w 02808 00000080
w 00100 00000002
arrive 52540012345602AABBCCDDEE0800 60
rx
