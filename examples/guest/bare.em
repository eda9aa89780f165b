# em_debug --memory 1024G --budget 16777216 --mac 525400123456
link up
w 00000 04000000 # the machine was reset
r 00008 = 00000083 @ read_register(), bare.c:143
r 00010 = refused NoRegister @ read_register(), bare.c:143
w 03800 00102080 @ write_register(), bare.c:147
w 03808 00000080 @ write_register(), bare.c:147
w 03810 00000000 @ write_register(), bare.c:147
w 03818 00000000 @ write_register(), bare.c:147
w 00400 00000002 @ write_register(), bare.c:147
r 000C0 = 00000000 @ read_register(), bare.c:143
w 000D0 00000001 @ write_register(), bare.c:147
poke 102081 201000000000003C000009 @ before send(), bare.c:164
poke 102000 FFFFFFFFFFFF52540012345688B562617265 @ before send(), bare.c:164
w 03818 00000001 @ send(), bare.c:164
tx = sent 0 60
r 000C0 = 00000003 @ on_interrupt(), bare.c:96
poke 102091 201000000000003C000009 @ before send(), bare.c:164
w 03818 00000002 @ send(), bare.c:164
tx = sent 1 60
r 000C0 = 00000003 @ on_interrupt(), bare.c:96
poke 1020A1 201000000000003C000009 @ before send(), bare.c:164
w 03818 00000003 @ send(), bare.c:164
tx = sent 2 60
r 000C0 = 00000003 @ on_interrupt(), bare.c:96
w 000D8 00000001 @ write_register(), bare.c:147
