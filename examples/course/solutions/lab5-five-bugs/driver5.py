"""Driver 5 receives packets of groups. Where it has left one group, it hears nothing of another."""
from registers import *

COUNT, SIZE, RING, BUFFERS = 8, 2048, 0x1000, 0x4000
# a descriptor: octets, and where in it the length and the status stand
DESCRIPTOR, LENGTH, STATUS_AT = 16, 8, 12
# bits of a word of the MTA, and its octets
WORD, WORD_OCTETS = 32, 4


def hash_of(group):
    """The hash of a group, as RCTL.MO = 0 takes it: bits 47 to 36 of the address."""
    return group[5] << 4 | group[4] >> 4


def word_of(group):
    return MTA + hash_of(group) // WORD * WORD_OCTETS


def bit_of(group):
    return 1 << hash_of(group) % WORD


class Driver:
    def __init__(self, nic):
        self.nic = nic
        self.next = 0

    def fill(self, index):
        at = RING + DESCRIPTOR * index
        buffer = BUFFERS + SIZE * index
        self.nic.memory[at : at + DESCRIPTOR] = buffer.to_bytes(8, "little") + bytes(8)

    def start(self):
        for index in range(COUNT):
            self.fill(index)
        self.nic.write(RDBAL, RING)
        self.nic.write(RDBAH, 0)
        self.nic.write(RDLEN, COUNT * DESCRIPTOR)
        self.nic.write(RDH, 0)
        self.nic.write(RDT, COUNT - 1)
        self.nic.write(RCTL, RCTL_EN | RCTL_BAM | RCTL_BSIZE_2048)

    def join(self, group):
        self.nic.write(word_of(group), self.nic.read(word_of(group)) | bit_of(group))

    def leave(self, group):
        self.nic.write(word_of(group), self.nic.read(word_of(group)) & ~bit_of(group))

    def receive(self):
        at = RING + DESCRIPTOR * self.next
        if not self.nic.memory[at + STATUS_AT] & RX_DD:
            return None
        length = int.from_bytes(self.nic.memory[at + LENGTH : at + LENGTH + 2], "little")
        buffer = BUFFERS + SIZE * self.next
        packet = self.nic.memory[buffer : buffer + length]
        self.fill(self.next)
        self.nic.write(RDT, self.next)
        self.next = (self.next + 1) % COUNT
        return packet
