# a comment = not expected
link up
r 00008
