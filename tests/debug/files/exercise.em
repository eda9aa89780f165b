# An exercise: what a driver reads when the link comes up.
w 000D0 4 = ok
link up
r 000C0 = 00000004
r 000C0 = 00000004   # the driver read it already
r 8 = 000000-3
