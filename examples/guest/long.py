#!/usr/bin/env python3
"""Writes a guest's run of a million events, in which its driver makes one mistake.

    python3 examples/guest/long.py > long.em

The driver answers each frame that arrives with one of its own. Once, it gives the adapter one receive descriptor too many. A
second later a watchdog finds that nothing comes any more, and puts it right. docs/traces.md leads from the frames that
were lost to the line of the driver that lost them.
"""
ROUNDS, FAULT, STALLED = 111_000, 77_700, 800
# so many of the frames that arrive meanwhile the adapter holds; the others are lost
HELD = 403
RING, BUFFERS, SENT_RING, SENT = 0x10000, 0x20000, 0x11000, 0x30000
DESCRIPTORS, BUFFER = 8, 2048


def own(line: str, place: str) -> None:
    """A line of the driver's, with where it stands there."""
    print(f"{line} @ {place}")


def fill(index: int, line: int) -> None:
    """The driver writes a receive descriptor."""
    address = BUFFERS + BUFFER * index
    own(f"poke {RING + 16 * index:X} {address.to_bytes(16, 'little').hex().upper()}", f"fill(), driver.c:{line}")


def give(index: int, tail: int) -> None:
    """The driver gives a receive descriptor back."""
    fill(index, 52)
    own(f"w RDT {tail:X}", "give(), driver.c:58")


def begin() -> None:
    print("# em_debug --memory 1048576 --budget 1048576 --mac 525400123456")
    print("link up")
    for name, value, line in (("RDBAL", RING, 21), ("RDLEN", 16 * DESCRIPTORS, 22), ("TDBAL", SENT_RING, 23),
                              ("TDLEN", 16 * DESCRIPTORS, 24), ("IMS", 0x80, 25), ("RCTL", 0x8002, 26), ("TCTL", 2, 27)):
        own(f"w {name} {value:X}", f"begin(), driver.c:{line}")
    for index in range(DESCRIPTORS):
        fill(index, 31)
    own(f"w RDT {DESCRIPTORS - 1:X}", "begin(), driver.c:33")


def arrives(number: int) -> None:
    print(f"arrive 52540012345652540000000108004500{number % 65536:04X} {60 + number % 120}")
    print("rx")


def answer(number: int) -> None:
    """The driver's interrupt: it takes the packet, gives the descriptor back, and answers."""
    index = number % DESCRIPTORS
    own("r ICR", "on_interrupt(), driver.c:96")
    # (its mistake: it counts one that it has given already)
    give(index, (index + (number == FAULT)) % DESCRIPTORS)
    descriptor = SENT.to_bytes(8, "little") + (60).to_bytes(2, "little") + bytes([0, 9]) + bytes(4)
    own(f"poke {SENT + 4:X} {number % 65536:04X}", "send(), driver.c:70")
    own(f"poke {SENT_RING + 16 * index:X} {descriptor.hex().upper()}", "send(), driver.c:71")
    own(f"w TDT {(index + 1) % DESCRIPTORS:X}", "send(), driver.c:72")
    print("tx")


def main() -> None:
    begin()
    number = 0
    while number < ROUNDS:
        arrives(number)
        answer(number)
        if number == FAULT:
            stands_still(number)
            number += HELD
        number += 1


def stands_still(number: int) -> None:
    """Frames arrive, and nobody takes them, until the watchdog puts the tail right."""
    for more in range(1, STALLED + 1):
        arrives(number + more)
    own("r RDH", "watchdog(), driver.c:118")
    own("r RDT", "watchdog(), driver.c:119")
    own(f"w RDT {number % DESCRIPTORS:X}", "watchdog(), driver.c:121")
    for more in range(1, HELD + 1):
        print("rx")
        answer(number + more)


if __name__ == "__main__":
    main()
