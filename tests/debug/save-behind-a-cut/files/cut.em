link up
init
back 192
w 00000038 7
