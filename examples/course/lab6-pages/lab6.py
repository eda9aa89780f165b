"""Lab 6: a driver for a kernel with pages, whose memory begins at 80000000h. The handout says what each function does."""
from nic import PAGE_SIZE
from registers import *

COUNT = 16
# a descriptor: octets, and where in it the length, the command and the status stand
DESCRIPTOR, LENGTH, COMMAND, STATUS_AT = 16, 8, 11, 12


class Driver:
    def __init__(self, nic):
        self.nic = nic
        # the page of each descriptor: the kernel's addresses
        self.rx_pages, self.tx_pages = [None] * COUNT, [None] * COUNT

    def start(self):
        # both rings, each in a page of kalloc's; a page for each receive descriptor; RCTL and TCTL; IMS last
        pass

    def transmit_page(self, page, length):
        # 1. kfree the pages that are sent
        # 2. is there room? Else the page stays its caller's
        # 3. the descriptor with the page's physical address, and then TDT
        return False

    def interrupt(self):
        # for each packet: a new page from kalloc takes the place of its page, which net_rx gets. Without a new page the
        # packet is dropped, and its page stays
        return False
