"""Lab 6, a solution."""
from nic import PAGE_SIZE
from registers import *

COUNT = 16
# a descriptor: octets, and where in it the length and the status stand
DESCRIPTOR, LENGTH, STATUS_AT = 16, 8, 12
LOW = 0xFFFF_FFFF


class Driver:
    def __init__(self, nic):
        self.nic = nic
        self.rx_next = self.tx_tail = self.tx_done = 0
        self.rx_pages, self.tx_pages = [None] * COUNT, [None] * COUNT

    def new_ring(self):
        """A page for a ring, all zeros."""
        ring = self.nic.kalloc()
        self.nic.memory[ring : ring + PAGE_SIZE] = bytes(PAGE_SIZE)
        return ring

    def fill(self, index):
        at = self.rx_ring + DESCRIPTOR * index
        buffer = self.nic.physical(self.rx_pages[index])
        self.nic.memory[at : at + DESCRIPTOR] = buffer.to_bytes(8, "little") + bytes(8)

    def start(self):
        self.rx_ring = self.new_ring()
        for index in range(COUNT):
            self.rx_pages[index] = self.nic.kalloc()
            self.fill(index)
        at = self.nic.physical(self.rx_ring)
        self.nic.write(RDBAL, at & LOW)
        self.nic.write(RDBAH, at >> 32)
        self.nic.write(RDLEN, COUNT * DESCRIPTOR)
        self.nic.write(RDH, 0)
        self.nic.write(RDT, COUNT - 1)
        self.nic.write(RCTL, RCTL_EN | RCTL_BAM | RCTL_BSIZE_2048)
        self.start_transmitter()
        self.nic.read(ICR)  # what was before does not count
        self.nic.write(IMS, INT_RXT0 | INT_RXO)

    def start_transmitter(self):
        self.tx_ring = self.new_ring()
        at = self.nic.physical(self.tx_ring)
        self.nic.write(TDBAL, at & LOW)
        self.nic.write(TDBAH, at >> 32)
        self.nic.write(TDLEN, COUNT * DESCRIPTOR)
        self.nic.write(TDH, 0)
        self.nic.write(TDT, 0)
        self.nic.write(TCTL, TCTL_EN | TCTL_PSP)

    def free_sent(self):
        """Frees the pages that are sent."""
        head = self.nic.read(TDH)
        while self.tx_done != head:
            self.nic.kfree(self.tx_pages[self.tx_done])
            self.tx_done = (self.tx_done + 1) % COUNT

    def transmit_page(self, page, length):
        after = (self.tx_tail + 1) % COUNT
        self.free_sent()
        if after == self.tx_done:
            return False
        self.tx_pages[self.tx_tail] = page
        at = self.tx_ring + DESCRIPTOR * self.tx_tail
        where = self.nic.physical(page).to_bytes(8, "little") + length.to_bytes(2, "little")
        self.nic.memory[at : at + DESCRIPTOR] = where + bytes([0, TX_EOP | TX_IFCS | TX_RS]) + bytes(4)
        self.tx_tail = after
        self.nic.write(TDT, self.tx_tail)
        return True

    def take_packets(self):
        while self.nic.memory[(at := self.rx_ring + DESCRIPTOR * self.rx_next) + STATUS_AT] & RX_DD:
            length = int.from_bytes(self.nic.memory[at + LENGTH : at + LENGTH + 2], "little")
            fresh = self.nic.kalloc()
            if fresh is not None:  # (else the packet is dropped, and its page used again)
                self.nic.net_rx(self.rx_pages[self.rx_next], length)
                self.rx_pages[self.rx_next] = fresh
            self.fill(self.rx_next)
            self.nic.write(RDT, self.rx_next)
            self.rx_next = (self.rx_next + 1) % COUNT

    def interrupt(self):
        causes = self.nic.read(ICR)
        if causes & (INT_RXT0 | INT_RXO):
            self.take_packets()
        return causes != 0
