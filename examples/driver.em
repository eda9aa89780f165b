# A driver's whole session: it starts, sends a packet, and takes one that arrives between two accesses of its call.
link up
init
# What it started is there: eight descriptors with their buffers, of which seven are the adapter's, up to RDT.
peek 0 32
r 02818
send FFFFFFFFFFFF52540012345608060001 60
tx
# Nothing has arrived. recv reads RDT, looks at the next descriptor, and that is all: one event.
recv 4
# Now a frame arrives, and is written, between these two. A dot ends the list of what falls before one access.
turns . arrive:FFFFFFFFFFFF02AABBCCDDEE08060001:60 rx
recv 4
# A packet, by three events of the driver: RDT read, the descriptor's status cleared, RDT written. Two turns were
# performed, none refused. The call is taken back access by access: first the write of RDT, then that of the status.
peek 8 8
back
peek 8 8
back
peek 8 8
# The packet is the driver's again. One event more, the receive step, and its descriptor is empty: the frame waits in
# the adapter. If the driver looks now, it is too early; the step and the next call bring the same packet.
back
peek 8 8
recv 4
rx
recv 4
# Packets and octets, received and sent. Reading the counters clears them, and that is taken back too.
stats
stats
back 12
stats
