link up
init
