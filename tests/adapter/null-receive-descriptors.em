# em_debug --profile adapter
# into a descriptor with the address 0 no octet goes: of it DD is set, and all else stays
link up = ok
r ICR = 00000004
w RDBAL 1000 = ok
w RDLEN 80 = ok
poke 0 11223344 = ok
poke 1000 0000000000000000341278564A9ABCDE = ok
poke 1010 00200000000000000000000000000000 = ok
poke 1020 00000000000000000000000001000000 = ok
poke 1030 00280000000000000000000000000000 = ok
w RDT 7 = ok
w RCTL 04008002 = ok
arrive FFFFFFFFFFFF5254001234560806 60 = stored
rx = wrote 0
peek 1000 16 = 0000000000000000341278564B9ABCDE
peek 0 4 = 11223344
r RDH = 00000001
# the frame stays, and with no octet of it no cause comes
r ICR = 00000000
rx = wrote 1
peek 1010 16 = 00200000000000003C00000007000000
peek 2000 14 = FFFFFFFFFFFF5254001234560806
r ICR = 00000080
# where no frame waits, the engine looks at no descriptor
rx = idle
peek 1020 16 = 00000000000000000000000001000000
# DD that is set stays set, and the threshold is asked: of eight descriptors four are left
arrive FFFFFFFFFFFF5254001234560806 60 = stored
rx = wrote 2
peek 1020 16 = 00000000000000000000000001000000
r ICR = 00000010
# between two pieces of a frame it takes none of them
w RCTL 04038002 = ok
arrive FFFFFFFFFFFF5254001234560806 300 = stored
rx = wrote 3
peek 1030 16 = 00280000000000003C00000007000000
poke 1040 00300000000000000000000000000000 = ok
poke 1050 00000000000000000000000000000000 = ok
poke 1060 00380000000000000000000000000000 = ok
rx = wrote 4
peek 1040 16 = 00300000000000000001000005000000
rx = wrote 5
peek 1050 16 = 00000000000000000000000001000000
rx = wrote 6
peek 1060 16 = 00380000000000002C00000007000000
# an address is one of 64 bits
w RDT 6 = ok
poke 1070 00000000010000000000000000000000 = ok
arrive FFFFFFFFFFFF5254001234560806 60 = stored
rx = refused DmaRange
poke 1070 00000000000000800000000000000000 = ok
rx = refused DmaRange
# the address 1 is a place like any other
poke 1070 01000000000000000000000000000000 = ok
rx = wrote 7
peek 1070 16 = 01000000000000003C00000007000000
peek 0 4 = 11FFFFFF
