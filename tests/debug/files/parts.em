# a comment = not expected
link up @ driver.c:10
r 00008 = 83 @ driver.c:11 # the link is up
w 00038 00000001 # so that a = b
r 00038 =2
