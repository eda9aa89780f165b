"""The board that a driver in Python stands on. Of these files nothing is to be changed: the tests take their own copies.

A driver is a class `Driver`, which is made with a Nic. The adapter acts behind each access of a register, and between two
calls of the driver: so a loop that only looks at memory waits for ever.
"""
import importlib.util
import mmap
import socket
import sys
from pathlib import Path

PAGE_SIZE = 4096
# In lab 6 the kernel has physical memory mapped so much above its physical addresses; in the others nothing is mapped.
KERNEL_OFFSET = 0x3F_0000_0000


class Memory:
    """Memory by the driver's addresses: memory[a], memory[a:b], and the same set."""

    def __init__(self, descriptor, first, size):
        self._octets = mmap.mmap(descriptor, size)
        self._first = first

    def _range(self, where):
        start, stop = (where.start, where.stop) if isinstance(where, slice) else (where, where + 1)
        start, stop = start - self._first, stop - self._first
        if not 0 <= start <= stop <= len(self._octets):
            raise IndexError(f"there is no memory at {start + self._first:X}h")
        return slice(start, stop)

    def __getitem__(self, where):
        octets = bytes(self._octets[self._range(where)])
        return octets if isinstance(where, slice) else octets[0]

    def __setitem__(self, where, value):
        place = self._range(where)
        octets = bytes(value) if isinstance(where, slice) else bytes([value])
        if len(octets) != place.stop - place.start:
            raise ValueError(f"{len(octets)} octets do not fit where {place.stop - place.start} lie")
        self._octets[place] = octets


class Nic:
    """What the board does for the driver."""

    def __init__(self, words):
        connection, memory, base, size = (int(word) for word in words)
        self._lines = socket.socket(fileno=connection).makefile("rw", newline="\n")
        self._offset = KERNEL_OFFSET if base else 0
        self.memory = Memory(memory, base + self._offset, size)

    def _asked(self, *words):
        self._lines.write(" ".join(map(str, words)) + "\n")
        self._lines.flush()
        return self._lines.readline().strip()

    def _here(self):
        """The driver's line that makes the access."""
        frame = sys._getframe(2)
        return f"{Path(frame.f_code.co_filename).name}:{frame.f_lineno}"

    def read(self, register):
        """The driver reads a register."""
        return int(self._asked("r", f"{register:x}", self._here()), 16)

    def write(self, register, value):
        """The driver writes a register."""
        self._asked("w", f"{register:x}", f"{value:x}", self._here())

    def deliver(self, packet):
        """Lab 4: a packet was received."""
        self._asked("deliver", bytes(packet).hex())

    def link_changed(self, is_up):
        """Lab 4: the link went up or down."""
        self._asked("link", int(is_up))

    # ---- lab 6: addresses are those of the kernel; the adapter's are physical

    def physical(self, address):
        """The physical address that a kernel's address has."""
        return address - self._offset

    def kernel(self, physical):
        """The kernel's address that a physical address has."""
        return physical + self._offset

    def kalloc(self):
        """A page of PAGE_SIZE octets, by its kernel's address; None where there is none."""
        physical = int(self._asked("kalloc"))
        return self.kernel(physical) if physical else None

    def kfree(self, page):
        """A page is given back."""
        self._asked("kfree", self.physical(page))

    def net_rx(self, page, length):
        """A page with a packet is handed on."""
        self._asked("net_rx", self.physical(page), length)


# how the words of a call become values; what is not named takes none
WORDS = {
    "eeprom_word": lambda nic, words: [int(words[0])],
    "transmit": lambda nic, words: [bytes.fromhex(words[0])],
    "join": lambda nic, words: [bytes.fromhex(words[0])],
    "leave": lambda nic, words: [bytes.fromhex(words[0])],
    "transmit_page": lambda nic, words: [nic.kernel(int(words[0])), int(words[1])],
}


def said(value):
    """What a function of the driver gave, as the tests read it."""
    if value is None:
        return "none"
    return bytes(value).hex() if isinstance(value, (bytes, bytearray)) else str(int(value))


def serve(driver, nic):
    """Each line of the tests calls a function of the driver, and is answered."""
    for line in iter(nic._lines.readline, ""):
        name, *words = line.split()
        call = getattr(driver, name, None)
        values = WORDS.get(name, lambda nic, words: [])(nic, words)
        nic._lines.write(f"= {said(call(*values))}\n" if call else "?\n")
        nic._lines.flush()


def main():
    path = Path(sys.argv[1])
    sys.path[:0] = [str(Path(__file__).parent)]
    found = importlib.util.spec_from_file_location(path.stem, path)
    module = importlib.util.module_from_spec(found)
    found.loader.exec_module(module)
    nic = Nic(sys.argv[2:])
    serve(module.Driver(nic), nic)


if __name__ == "__main__":
    if len(sys.argv) != 6:
        sys.exit("the tests start this program: ./test LAB python")
    main()
