# A driver's receive ring breaks: the last step is refused. Which access broke it?
# The ring lies at 1000h: eight descriptors, of which three have buffers, at 2000h, 2800h and 3000h.
w 02800 00001000
w 02808 00000080
poke 1000 00200000000000000000000000000000
poke 1010 00280000000000000000000000000000
poke 1020 00300000000000000000000000000000
w 02818 00000003
w 00100 00008002
link up
# A frame arrives, and the engine puts it into the first buffer.
arrive FFFFFFFFFFFF02AABBCCDDEE0806000108000604000102AABBCCDDEE0A0000010000000000000A000002 60
rx
# The driver gives the second descriptor a fresh buffer, and goes on. Two more frames arrive.
poke 1010 0010000000000000
arrive 52540012345602AABBCCDDEE0806000108000604000202AABBCCDDEE0A0000015254001234560A000002 60
arrive 52540012345602AABBCCDDEE0800 60
rx
rx
