"""Lab 1, a solution."""
from registers import *

WORDS, GOOD_SUM = 64, 0xBABA


class Driver:
    def __init__(self, nic):
        self.nic = nic
        self.frames = 0

    def link_is_up(self):
        return self.nic.read(STATUS) & STATUS_LU != 0

    def mac_address(self):
        low, high = self.nic.read(RAL0), self.nic.read(RAH0)
        return low.to_bytes(4, "little") + (high & 0xFFFF).to_bytes(2, "little")

    def eeprom_word(self, address):
        self.nic.write(EERD, address << EERD_ADDR_SHIFT | EERD_START)
        while not (value := self.nic.read(EERD)) & EERD_DONE:
            pass
        return value >> EERD_DATA_SHIFT

    def eeprom_is_good(self):
        return sum(self.eeprom_word(at) for at in range(WORDS)) % 0x10000 == GOOD_SUM

    def frames_received(self):
        self.frames += self.nic.read(GPRC)
        return self.frames
