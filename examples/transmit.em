# A driver sends one frame out of two buffers: the header in one, the payload in the other.
poke 3000 FFFFFFFFFFFF5254001234560806
poke 3100 00010800060400015254001234560A0000010000000000000A000002
# Two descriptors: address, length, command. The second one ends the frame (EOP) and asks for its status (RS).
poke 2000 00300000000000000E00000000000000
poke 2010 00310000000000001C00000900000000
w 03800 00002000
w 03808 00000080
w 00400 0000000A
w 000D0 00000001
# The tail is moved past both of them, and the engine takes one descriptor at a time.
w 03818 00000002
tx
wire
tx
wire
# The frame is on the wire, padded to 60 octets. The line is asserted, the status says done, and the frame is counted.
line
peek 2010 16
r 04080
# Two events are taken back, the read and the step: the frame is off the wire, and its header is gathered as before.
back 2
wire
line
peek 2010 16
# The payload is changed under the engine, and the step goes another way.
poke 311B 63
tx
wire
