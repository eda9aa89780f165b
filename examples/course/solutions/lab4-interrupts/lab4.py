"""Lab 4, a solution."""
from registers import *

COUNT, SIZE, RING, BUFFERS = 8, 2048, 0x1000, 0x4000
# a descriptor: octets, and where in it the length and the status stand
DESCRIPTOR, LENGTH, STATUS_AT = 16, 8, 12


class Driver:
    def __init__(self, nic):
        self.nic = nic
        self.next = 0

    def fill(self, index):
        at = RING + DESCRIPTOR * index
        buffer = BUFFERS + SIZE * index
        self.nic.memory[at : at + DESCRIPTOR] = buffer.to_bytes(8, "little") + bytes(8)

    def start(self):
        for index in range(COUNT):
            self.fill(index)
        self.nic.write(RDBAL, RING)
        self.nic.write(RDBAH, 0)
        self.nic.write(RDLEN, COUNT * DESCRIPTOR)
        self.nic.write(RDH, 0)
        self.nic.write(RDT, COUNT - 1)
        self.nic.write(RCTL, RCTL_EN | RCTL_BAM | RCTL_BSIZE_2048)
        self.nic.read(ICR)  # what was before does not count
        self.nic.write(IMS, INT_RXT0 | INT_RXO | INT_LSC)

    def take_packets(self):
        while self.nic.memory[(at := RING + DESCRIPTOR * self.next) + STATUS_AT] & RX_DD:
            length = int.from_bytes(self.nic.memory[at + LENGTH : at + LENGTH + 2], "little")
            buffer = BUFFERS + SIZE * self.next
            self.nic.deliver(self.nic.memory[buffer : buffer + length])
            self.fill(self.next)
            self.nic.write(RDT, self.next)
            self.next = (self.next + 1) % COUNT

    def interrupt(self):
        causes = self.nic.read(ICR)
        if causes & INT_LSC:
            self.nic.link_changed(self.nic.read(STATUS) & STATUS_LU != 0)
        if causes & (INT_RXT0 | INT_RXO):
            self.take_packets()
        return causes != 0
