"""A student's driver for the receive side of the adapter: it gives eight buffers, takes packets in order, and gives
each buffer back. `nic` is a machine of bunjelav, or anything with its `read`, `write` and `memory`."""

RING, BUFFERS, COUNT, SIZE = 0x1000, 0x4000, 8, 2048

# a descriptor: the buffer's address, the length, and at octet 12 the status
DESCRIPTOR, LENGTH, STATUS = 16, 8, 12
DD, EOP = 0x01, 0x02
RXT0 = 0x80
EN, BAM = 0x0000_0002, 0x0000_8000


class Driver:
    def __init__(self, nic):
        self.nic = nic
        self.next = 0

    def start(self):
        """Gives all buffers but one to the adapter, and turns receiving on."""
        for index in range(COUNT):
            self.give(index)
        self.nic.write("RDBAL", RING)
        self.nic.write("RDBAH", 0)
        self.nic.write("RDLEN", COUNT * DESCRIPTOR)
        self.nic.write("RDH", 0)
        self.nic.write("RDT", COUNT - 1)
        self.nic.write("RCTL", EN | BAM)
        self.nic.write("IMS", RXT0)

    def give(self, index):
        """Makes a descriptor as the adapter is to find it: its buffer, and a status of 0."""
        at = RING + DESCRIPTOR * index
        buffer = BUFFERS + SIZE * index
        self.nic.memory[at : at + DESCRIPTOR] = buffer.to_bytes(8, "little") + bytes(8)

    def receive(self):
        """The next packet, or None. Its buffer is given back first, and then the tail."""
        at = RING + DESCRIPTOR * self.next
        if not self.nic.memory[at + STATUS] & DD:
            return None
        length = int.from_bytes(self.nic.memory[at + LENGTH : at + LENGTH + 2], "little")
        buffer = BUFFERS + SIZE * self.next
        packet = self.nic.memory[buffer : buffer + length]
        self.give(self.next)
        self.nic.write("RDT", self.next)
        self.next = (self.next + 1) % COUNT
        return packet

    def interrupted(self):
        """What the routine does: it reads the causes once, and takes all packets."""
        if not self.nic.read("ICR") & RXT0:
            return []
        packets = []
        while (packet := self.receive()) is not None:
            packets.append(packet)
        return packets
