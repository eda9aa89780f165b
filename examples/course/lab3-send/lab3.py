"""Lab 3: packets are sent. The handout says what each function does."""
from registers import *

# where in the board's memory of 64 KiB the ring and its buffers lie: physical addresses; how long a packet can be
COUNT, SIZE, RING, BUFFERS, LONGEST = 8, 2048, 0x1000, 0x4000, 1514
# a descriptor: octets, and where in it the length, the command and the status stand
DESCRIPTOR, LENGTH, COMMAND, STATUS_AT = 16, 8, 11, 12


class Driver:
    def __init__(self, nic):
        self.nic = nic

    def start(self):
        # 1. all descriptors are 0
        # 2. TDBAL, TDBAH, TDLEN, TDH, TDT
        # 3. TCTL, last of all
        pass

    def transmit(self, packet):
        # 1. is there room? Else the packet is not taken
        # 2. copy the packet to the descriptor's buffer
        # 3. write the descriptor
        # 4. give it to the adapter
        return False
