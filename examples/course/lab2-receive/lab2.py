"""Lab 2: packets are received. The handout says what each function does."""
from registers import *

# where in the board's memory of 64 KiB the ring and its buffers lie: physical addresses
COUNT, SIZE, RING, BUFFERS = 8, 2048, 0x1000, 0x4000
# a descriptor: octets, and where in it the length and the status stand
DESCRIPTOR, LENGTH, STATUS_AT = 16, 8, 12


class Driver:
    def __init__(self, nic):
        self.nic = nic

    def start(self):
        # 1. each descriptor gets its buffer's address; all else in it is 0
        # 2. RDBAL, RDBAH, RDLEN, RDH, RDT
        # 3. RCTL, last of all
        pass

    def receive(self):
        # 1. is the next descriptor done? Else there is no packet
        # 2. copy the packet
        # 3. make the descriptor new, and give it back
        return None
