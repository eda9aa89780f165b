"""Lab 1: the adapter's registers. The handout says what each function gives."""
from registers import *


class Driver:
    def __init__(self, nic):
        self.nic = nic

    def link_is_up(self):
        return False  # STATUS

    def mac_address(self):
        return bytes(6)  # RAL0, RAH0

    def eeprom_word(self, address):
        return 0  # EERD

    def eeprom_is_good(self):
        return False

    def frames_received(self):
        return 0  # GPRC
