w 38 1
w 38 2
back 2
w 38 3
w 38 4
