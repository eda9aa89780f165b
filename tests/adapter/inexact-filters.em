# em_debug --profile adapter
# PIF is set where no exact filter takes a frame: RAL and RAH, their sources, and BAM for the broadcast address
link up = ok
w RDBAL 1000 = ok
w RDLEN 100 = ok
poke 1000 0020000000000000 = ok
poke 1010 0020000000000000 = ok
poke 1020 0020000000000000 = ok
poke 1030 0020000000000000 = ok
poke 1040 0020000000000000 = ok
poke 1050 0020000000000000 = ok
poke 1060 0020000000000000 = ok
poke 1070 0020000000000000 = ok
poke 1080 0020000000000000 = ok
poke 1090 0020000000000000 = ok
poke 10A0 0020000000000000 = ok
w RDT F = ok
w RAL1 00000002 = ok
w RAH1 80000700 = ok
# the table has the destination
w RCTL 04000002 = ok
arrive 0200000000075254001234560800 60 = stored
rx = wrote 0
peek 100C 2 = 0700
# UPE lets a frame pass; of one for the table it tells nothing
w RCTL 0400000A = ok
arrive 0200000000095254001234560800 60 = stored
rx = wrote 1
peek 101C 2 = 8700
arrive 0200000000075254001234560800 60 = stored
rx = wrote 2
peek 102C 2 = 0700
# MPE does, of a group and of all
w RCTL 04000012 = ok
arrive 01005E0000015254001234560800 60 = stored
rx = wrote 3
peek 103C 2 = 8700
arrive FFFFFFFFFFFF5254001234560800 60 = stored
rx = wrote 4
peek 104C 2 = 8700
# BAM is exact
w RCTL 04008012 = ok
arrive FFFFFFFFFFFF5254001234560800 60 = stored
rx = wrote 5
peek 105C 2 = 0700
# the hash is not: that of 01:00:5E:00:00:01 is 10h, bit 16 of MTA0
w RCTL 04000002 = ok
w 5200 00010000 = ok
arrive 01005E0000015254001234560800 60 = stored
rx = wrote 6
peek 106C 2 = 8700
# but where the table has the group, it is known
w RAL2 005E0001 = ok
w RAH2 80000100 = ok
arrive 01005E0000015254001234560800 60 = stored
rx = wrote 7
peek 107C 2 = 0700
# a source is exact
w RAL3 00000002 = ok
w RAH3 80010500 = ok
arrive 0200000000090200000000050800 60 = stored
rx = wrote 8
peek 108C 2 = 0700
# PIF comes with a frame's last octet alone, and beside VP
w RCTL 0403000A = ok
w VET 8100 = ok
w CTRL 40000000 = ok
arrive 020000000009525400123456810000050800 300 = stored
rx = wrote 9
peek 109C 4 = 05000000
rx = wrote 10
peek 10AC 4 = 8F000500
# it goes by the filters as they are when the engine hands the frame out
poke 10B0 0020000000000000 = ok
w RCTL 0400000A = ok
arrive 0200000000095254001234560800 60 = stored
w RAH1 80000900 = ok
rx = wrote 11
peek 10BC 2 = 0700
