# line 1: memory_region_ops_write 0.000 pid=4242 cpu_index=0x0 mr=0x55d4fdf33990 addr=0xcf8 value=0x80001000 size=0x4 name=b'pci-conf-idx'
link up
w 000C0 00000004
r 00000 = 00140240
w 000D0 0000009D
r 000D0 = 0000009D
