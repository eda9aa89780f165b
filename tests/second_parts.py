"""The second reading of what the second profile has besides words: the EEPROM's pins in EECD, and the PHY behind MDIC.

Each is a value that is replaced and never changed in its place, as the parts of a state of tests/second_reading.py are.
"""
from typing import NamedTuple

SK, CS, DI, DO = 1, 2, 4, 8
REQ, GNT, PRES = 0x40, 0x80, 0x100
STORED = 0x77  # SK, CS, DI, FWE and REQ
# the PHY's words at power on, those that are not 0
POWER_ON = {
    0: 0x1140, 1: 0x7949, 2: 0x0141, 3: 0x0C20, 4: 0x0DE1, 5: 0x01E0, 9: 0x0E00, 10: 0x3C00, 16: 0x0360, 17: 0xA800,
    20: 0x0D60,
}
READ_ONLY = (1, 2, 3, 17)
# what the link adds: link status and negotiation complete; link
LINK_BITS = {1: 0x24, 17: 0x400}


class Pins(NamedTuple):
    """What was written last, the bits that came in since CS rose, and how often SK fell since the ninth."""

    pins: int = 0x10
    heard: str = ""
    fell: int = 0

    def write(self, value: int) -> "Pins":
        pins, heard, fell = self
        if value & CS:
            if not pins & CS:
                heard, fell = "", 0
            if value & SK and not pins & SK:
                heard += str(value >> 2 & 1) if len(heard) < 9 else ""
            if pins & SK and not value & SK and len(heard) == 9:
                fell += 1
        return Pins(value & STORED, heard, fell)

    def read(self, words: tuple) -> int:
        bit = 1
        if self.pins & CS and len(self.heard) == 9 and self.heard.startswith("110"):
            first = int(self.heard[3:], 2)
            bits = "".join(f"{words[(first + i) % 64]:016b}" for i in range(64))
            bit = int(bits[(self.fell - 1) % 1024]) if self.fell else 0
        return self.pins | DO * bit | (GNT if self.pins & REQ else 0) | PRES


class Phy(NamedTuple):
    """MDIC, and the 32 words."""

    mdic: int = 0
    words: tuple = tuple(POWER_ON.get(i, 0) for i in range(32))

    def word(self, link: bool, at: int) -> int:
        return self.words[at] | (LINK_BITS.get(at, 0) if link else 0)

    def write(self, link: bool, value: int) -> "Phy":
        data, at, phy, operation = value & 0xFFFF, value >> 16 & 31, value >> 21 & 31, value >> 26 & 3
        told, words = value & ~(1 << 31 | 1 << 30) | 1 << 28, self.words
        if phy != 1:
            told |= 1 << 30
        elif operation == 2:
            told = told & ~0xFFFF | self.word(link, at)
        elif operation == 1 and at not in READ_ONLY:
            stored = data & ~(1 << 15 | 1 << 9) if at == 0 else data
            words = (*words[:at], stored, *words[at + 1 :])
        return Phy(told, words)
