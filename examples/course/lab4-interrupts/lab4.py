"""Lab 4: the driver of lab 2, by interrupts. The handout says what each function does."""
from registers import *

COUNT, SIZE, RING, BUFFERS = 8, 2048, 0x1000, 0x4000
# a descriptor: octets, and where in it the length and the status stand
DESCRIPTOR, LENGTH, STATUS_AT = 16, 8, 12


class Driver:
    def __init__(self, nic):
        self.nic = nic

    def start(self):
        # 1. the receive ring and RCTL, as in lab 2
        # 2. what ICR had before does not count
        # 3. IMS lets the causes through that the routine answers
        pass

    def interrupt(self):
        # 1. which causes are there?
        # 2. self.nic.link_changed, where the link changed
        # 3. self.nic.deliver each packet that lies in the ring, and give its descriptor back
        return False
