"""Driver 3 sends packets. Some go out as others that were sent before, or not at all."""
from registers import *

COUNT, SIZE, RING, BUFFERS, LONGEST = 8, 2048, 0x1000, 0x4000, 1514
DESCRIPTOR = 16


def descriptor(buffer, length):
    """A descriptor as the adapter is to find it."""
    command = TX_EOP | TX_IFCS | TX_RS
    return buffer.to_bytes(8, "little") + length.to_bytes(2, "little") + bytes([0, command]) + bytes(4)


class Driver:
    def __init__(self, nic):
        self.nic = nic
        self.tail = 0

    def start(self):
        self.nic.memory[RING : RING + DESCRIPTOR * COUNT] = bytes(DESCRIPTOR * COUNT)
        self.nic.write(TDBAL, RING)
        self.nic.write(TDBAH, 0)
        self.nic.write(TDLEN, COUNT * DESCRIPTOR)
        self.nic.write(TDH, 0)
        self.nic.write(TDT, 0)
        self.nic.write(TCTL, TCTL_EN | TCTL_PSP)

    def claim(self):
        """The index of a free descriptor, or None. The tail goes behind it, once it is written."""
        index, after = self.tail, (self.tail + 1) % COUNT
        if after == self.nic.read(TDH):
            return None
        self.tail = after
        return index

    def transmit(self, packet):
        if len(packet) > LONGEST:
            return False
        index = self.claim()
        if index is None:
            return False
        buffer, at = BUFFERS + SIZE * index, RING + DESCRIPTOR * index
        self.nic.memory[buffer : buffer + len(packet)] = packet
        self.nic.memory[at : at + DESCRIPTOR] = descriptor(buffer, len(packet))
        self.nic.write(TDT, self.tail)
        return True
