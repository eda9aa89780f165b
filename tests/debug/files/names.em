link up # the link comes up
w RCTL EN|BAM
w  rdt 0x3
r STATUS = 83 @ driver.c:12
poke 0x1000 0102
mac 52:54:00:12:34:57 = refused NoDriver
w RCTL EN|NONE
