"""The kernel's pages, of lab 6: who has each, and what a driver must not do with them."""
import random
from typing import Dict

from bench import Bench
from bunjelav import Event
from fault import Fault

BASE, SIZE, PAGE = 0x80000000, 0x8000000, 4096
# pages that kalloc gives: behind the kernel's text and data
FIRST, COUNT = BASE + 0x100000, 256
# what a page holds that was given out or given back, as xv6 fills them
GIVEN, FREED = bytes([5]) * PAGE, bytes([1]) * PAGE
DRIVER, STACK = "the driver", "the rest of the kernel"


class Pages:
    """The allocator of a bench."""

    def __init__(self, bench: Bench, seed: int = 0) -> None:
        self._bench = bench
        self._free = [FIRST + PAGE * index for index in range(COUNT)]
        random.Random(seed).shuffle(self._free)
        self.owner: Dict[int, str] = {}
        self.is_short = False
        self.freed: list = []
        bench.serve("kalloc", lambda rest: str(self.give(DRIVER)))
        bench.serve("kfree", self._kfree)
        bench.after_step = self._stepped

    def give(self, owner: str) -> int:
        """A page by its physical address; 0 where there is none."""
        if owner == DRIVER and (self.is_short or not self._free):
            return 0
        if not self._free:
            raise Fault(f"no page is left: the driver has {self.held()} of {COUNT}, and gives none back")
        page = self._free.pop(0)
        self.owner[page] = owner
        self._fill(page, GIVEN)
        return page

    def take_back(self, page: int) -> None:
        """The rest of the kernel gives a page back."""
        self.owner.pop(page)
        self._fill(page, FREED)
        self._free.append(page)

    def held(self) -> int:
        """How many pages the driver has."""
        return sum(owner == DRIVER for owner in self.owner.values())

    def _fill(self, page: int, octets: bytes) -> None:
        self._bench.octets[page - BASE : page - BASE + PAGE] = octets

    def _kfree(self, rest: str) -> str:
        page = int(rest)
        self.must_be_drivers(page, "kfree")
        self.freed.append(page)
        self.take_back(page)
        return "ok"

    def must_be_drivers(self, page: int, call: str) -> None:
        """The page is the driver's, and the adapter does not use it any more."""
        owner = self.owner.get(page)
        if page % PAGE or not FIRST <= page < FIRST + PAGE * COUNT:
            raise Fault(f"{call} got {page:X}h, which is no page that kalloc gave")
        if owner != DRIVER:
            raise Fault(f"{call} got the page {page:X}h, which is {owner or 'nobody'}'s: a page is given away once",
                        f"who {page:X} 16")
        for which in ("rx", "tx"):
            for one in self._bench.machine.ring(which):
                if one.owned and one.address // PAGE * PAGE == page:
                    at = self._bench.ring(which).at(one.index)
                    raise Fault(f"{call} got the page {page:X}h while the adapter has it: it is the buffer of "
                                f"descriptor {one.index} of the {which} ring", f"who {at:X} 8", f"ring {which}")

    def _stepped(self, event: Event) -> None:
        """The adapter read or wrote a page that is the driver's."""
        page = event.buffer // PAGE * PAGE
        if event.octets and self.owner.get(page) != DRIVER:
            verb = "wrote to" if event.kind == "wrote" else "sent from"
            raise Fault(f"the adapter {verb} the page {page:X}h, which is not the driver's any more: its descriptor "
                        f"at {event.at:X}h still had it", f"who {event.at:X} 8", f"who {event.buffer:X} 16")
        if event.octets and event.buffer + event.octets > page + PAGE:
            raise Fault(f"the adapter went past the end of the page {page:X}h: the buffer begins at {event.buffer:X}h",
                        f"who {event.at:X} 8")
