"""Lab 2, a solution."""
from registers import *

COUNT, SIZE, RING, BUFFERS = 8, 2048, 0x1000, 0x4000
# a descriptor: octets, and where in it the length and the status stand
DESCRIPTOR, LENGTH, STATUS_AT = 16, 8, 12


class Driver:
    def __init__(self, nic):
        self.nic = nic
        self.next = 0

    def fill(self, index):
        at = RING + DESCRIPTOR * index
        buffer = BUFFERS + SIZE * index
        self.nic.memory[at : at + DESCRIPTOR] = buffer.to_bytes(8, "little") + bytes(8)

    def start(self):
        for index in range(COUNT):
            self.fill(index)
        self.nic.write(RDBAL, RING)
        self.nic.write(RDBAH, 0)
        self.nic.write(RDLEN, COUNT * DESCRIPTOR)
        self.nic.write(RDH, 0)
        self.nic.write(RDT, COUNT - 1)
        self.nic.write(RCTL, RCTL_EN | RCTL_BAM | RCTL_BSIZE_2048)

    def receive(self):
        at = RING + DESCRIPTOR * self.next
        if not self.nic.memory[at + STATUS_AT] & RX_DD:
            return None
        length = int.from_bytes(self.nic.memory[at + LENGTH : at + LENGTH + 2], "little")
        buffer = BUFFERS + SIZE * self.next
        packet = self.nic.memory[buffer : buffer + length]
        self.fill(self.next)
        self.nic.write(RDT, self.next)
        self.next = (self.next + 1) % COUNT
        return packet
