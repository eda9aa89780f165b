w D0 4
link up
w C0 FFFFFFFF
r C0
back
back
r C0
