# em_debug --profile adapter
# below 20000, at a multiple of 4
r 4 = 00000000
w 4 FFFFFFFF = ok
r 4 = 00000000
w 1FFFC 1 = ok
r 1FFFC = 00000000
# nor does a write reach what lies beside it: VET, at 38
w 3C 1234 = ok
r VET = 00008100
# these were events
back 7 = back 7
back = refused Empty
# any other is refused, and is none
r 20000 = refused NoRegister
w 20000 1 = refused NoRegister
r FFFFFFFC = refused NoRegister
r 3 = refused NoRegister
r 12 = refused NoRegister
w 1FFFD 1 = refused NoRegister
w 6 1 = refused NoRegister
back = refused Empty
