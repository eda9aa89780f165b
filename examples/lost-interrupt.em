# A driver loses an interrupt. It lets link changes through, and the link comes up:
w 000D0 00000004
link up
line
# Its interrupt routine first acknowledges every cause, and then asks which it was. None:
w 000C0 FFFFFFFF
r 000C0
# Where did the cause go? Take the read back. The line is low already, so it was not the read:
back
line
# Take the acknowledgement back. Here the line is high: it was the write that lost the cause.
back
line
r 000C0
