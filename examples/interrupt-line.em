# The interrupt line follows the causes that the mask lets through.
# A cause is set by software (ICS), then let through (IMS): the line is asserted.
w 000C8 00000004
w 000D0 00000004
line
# Reading the causes (ICR) gives them and clears them: the line falls.
r 000C0
line
