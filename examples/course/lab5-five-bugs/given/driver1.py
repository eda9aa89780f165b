"""Driver 1 receives packets. It works for some of them, and then hands out packets that it had handed out before."""
from registers import *

COUNT, SIZE, RING, BUFFERS = 8, 2048, 0x1000, 0x4000
# a descriptor: octets, and where in it the length and the status stand
DESCRIPTOR, LENGTH, STATUS_AT = 16, 8, 12


class Driver:
    def __init__(self, nic):
        self.nic = nic
        self.next = 0

    def set_buffer(self, index):
        at = RING + DESCRIPTOR * index
        buffer = BUFFERS + SIZE * index
        self.nic.memory[at : at + 8] = buffer.to_bytes(8, "little")

    def give(self, index):
        """Gives a descriptor to the adapter."""
        self.set_buffer(index)
        self.nic.write(RDT, index)

    def start(self):
        self.nic.memory[RING : RING + DESCRIPTOR * COUNT] = bytes(DESCRIPTOR * COUNT)
        self.nic.write(RDBAL, RING)
        self.nic.write(RDBAH, 0)
        self.nic.write(RDLEN, COUNT * DESCRIPTOR)
        self.nic.write(RDH, 0)
        for index in range(COUNT):
            self.set_buffer(index)
        self.give(COUNT - 1)
        self.nic.write(RCTL, RCTL_EN | RCTL_BAM | RCTL_BSIZE_2048)

    def receive(self):
        index = self.next
        at = RING + DESCRIPTOR * index
        if not self.nic.memory[at + STATUS_AT] & RX_DD:
            return None
        length = int.from_bytes(self.nic.memory[at + LENGTH : at + LENGTH + 2], "little")
        buffer = BUFFERS + SIZE * index
        packet = self.nic.memory[buffer : buffer + length]
        self.next = (index + 1) % COUNT
        self.give(index)
        return packet
