# A driver's receive ring breaks, and the access that broke it is found by stepping back.
# The ring lies at 1000h: eight descriptors, of which three have buffers, at 2000h, 2800h and 3000h.
w 02800 00001000
w 02808 00000080
poke 1000 00200000000000000000000000000000
poke 1010 00280000000000000000000000000000
poke 1020 00300000000000000000000000000000
w 02818 00000003
w 00100 00008002
link up
# A frame arrives, and the engine puts it into the first buffer.
arrive FFFFFFFFFFFF02AABBCCDDEE0806000108000604000102AABBCCDDEE0A0000010000000000000A000002 60
rx
# The driver gives the second descriptor a fresh buffer, and goes on. Two more frames arrive.
poke 1010 0010000000000000
arrive 52540012345602AABBCCDDEE0806000108000604000202AABBCCDDEE0A0000015254001234560A000002 60
arrive 52540012345602AABBCCDDEE0800 60
rx
rx
# The last step was refused: the third descriptor, at 1020h, has an address outside memory.
peek 1020 8
# It holds the adapter's own Ethernet address, as packets do. Who wrote that? One event is taken back.
back
peek 1020 8
# Here the descriptor was whole: the receive step before broke it. It wrote where the second descriptor said.
peek 1010 8
# That is 1000h, the ring itself. Two arrivals are taken back, and then one event more.
back 2
peek 1010 8
back
peek 1010 8
# Here it was 2800h. The event just taken back is the driver's write at 1010h: a ring's address for a buffer's.
# From here on it goes well with another address.
poke 1010 0038000000000000
arrive 52540012345602AABBCCDDEE0806000108000604000202AABBCCDDEE0A0000015254001234560A000002 60
arrive 52540012345602AABBCCDDEE0800 60
rx
rx
peek 1020 16
