"""Lab 2, another way: a ring of 16 elsewhere, whose tail is read back, and buffers that are given back four at a time."""
from registers import *

COUNT, SIZE, RING, BUFFERS, BATCH = 16, 2048, 0x2A0, 0x8000, 4
DESCRIPTOR, LENGTH, STATUS_AT = 16, 8, 12


class Driver:
    def __init__(self, nic):
        self.nic = nic
        self.taken = []

    def start(self):
        nic = self.nic
        nic.write(CTRL, CTRL_RST)
        nic.write(CTRL, CTRL_FD | CTRL_SLU)
        for index in range(COUNT):
            buffer = BUFFERS + SIZE * index
            nic.memory[RING + DESCRIPTOR * index : RING + DESCRIPTOR * (index + 1)] = buffer.to_bytes(16, "little")
        nic.write(RDBAH, 0)
        nic.write(RDBAL, RING)
        nic.write(RDLEN, COUNT * DESCRIPTOR)
        nic.write(RDT, COUNT - 1)
        nic.write(RCTL, RCTL_BAM)
        nic.write(RCTL, nic.read(RCTL) | RCTL_EN)
        self.index = 0

    def receive(self):
        at = RING + DESCRIPTOR * self.index
        octets = self.nic.memory[at : at + DESCRIPTOR]
        if not octets[STATUS_AT] & RX_DD:
            return None
        buffer = int.from_bytes(octets[:LENGTH], "little")
        packet = self.nic.memory[buffer : buffer + int.from_bytes(octets[LENGTH : LENGTH + 2], "little")]
        self.nic.memory[at + STATUS_AT] = 0
        self.taken.append(self.index)
        self.index = (self.index + 1) % COUNT
        if len(self.taken) == BATCH:
            tail = (self.nic.read(RDT) + BATCH) % COUNT
            assert tail == self.taken[-1]
            self.nic.write(RDT, tail)
            self.taken.clear()
        return packet
