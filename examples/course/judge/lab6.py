"""Lab 6: a driver for a kernel with pages, whose memory begins at 80000000h."""
import random

from fault import Fault
from frames import MOST, frame
from lab4 import interrupts
from pages import BASE, DRIVER, SIZE, STACK, Pages
from received import must_be, must_be_set_up, must_be_stored, ring_fault
from received import must_have_ring as must_have_receive_ring
from sent import must_be_sent
from sent import must_have_ring as must_have_transmit_ring
from verdict import Tests

TESTS = Tests("lab6")
LAPS, OFFERED = 100, 80
# frames come before each so many-th access; so often the routine is called
PLACES, OFTEN = 4, 20


class Kernel:
    """What the rest of the kernel does: it takes packets, and gives their pages back later."""

    def __init__(self, make, seed=0):
        self.bench = make(base=BASE, memory=SIZE)
        self.pages = Pages(self.bench, seed)
        self.packets, self._kept = [], []
        self._draw = random.Random(seed)
        self.bench.serve("net_rx", self._net_rx)
        self.bench.set_link(True)
        self.bench.call("start")
        must_have_receive_ring(self.bench)
        must_have_transmit_ring(self.bench)

    def _net_rx(self, rest):
        page, length = map(int, rest.split())
        self.pages.must_be_drivers(page, "net_rx")
        self.packets.append(self.bench.octets_at(page, length))
        self.pages.owner[page] = STACK
        self._kept.append(page)
        return "ok"

    def settle(self):
        """Some of the pages that the kernel has come back."""
        self._draw.shuffle(self._kept)
        while len(self._kept) > self._draw.randrange(6):
            self.pages.take_back(self._kept.pop())

    def transmit(self, packet):
        """A page with a packet for the driver; whether it was taken."""
        page = self.pages.give(STACK)
        self.bench.octets[page - BASE : page - BASE + len(packet)] = packet
        self.pages.owner[page] = DRIVER  # (the driver may use it while the call lasts)
        freed = len(self.pages.freed)
        is_taken = self.bench.call("transmit_page", page, len(packet)) == "1"
        if not is_taken:
            if page in self.pages.freed[freed:]:
                raise Fault("transmit_page gave false and freed the page, which stays its caller's then")
            self.pages.owner[page] = STACK
            self.pages.take_back(page)
        return is_taken

    def receive(self, wanted, what):
        interrupts(self.bench)
        for at, packet in enumerate(self.packets[: len(wanted)]):
            must_be(self.bench, packet, wanted[at], f"what net_rx got for {what}")
        if len(self.packets) != len(wanted):
            fault = ring_fault(self.bench)
            raise Fault(f"net_rx got {len(self.packets)} of {len(wanted)} packets ({what}): {fault.sentence}",
                        *fault.questions)


def arrives(kernel, octets, what):
    must_be_stored(kernel.bench, kernel.bench.arrive(octets), what)


@TESTS.test(2, "the rings lie in pages, and one packet is received")
def one(make):
    kernel = Kernel(make)
    must_be_set_up(kernel.bench)
    for which in ("rx", "tx"):
        page = kernel.bench.ring(which).base // 4096 * 4096
        if kernel.pages.owner.get(page) != DRIVER:
            base = {"rx": "RDBAL", "tx": "TDBAL"}[which]
            raise Fault(f"the {which} ring lies at {kernel.bench.ring(which).base:X}h, which is in no page of the "
                        "driver's: the adapter wants a physical address", f"who {base}", f"look {base}")
    arrives(kernel, frame(1), "frame 1")
    kernel.receive([frame(1)], "frame 1")


@TESTS.test(2, "packets are received, and their pages are the kernel's")
def received_pages(make):
    kernel, sent = Kernel(make, 1), []
    for number in range(LAPS):
        sent.append(frame(number, 60 + 14 * number))
        arrives(kernel, sent[-1], f"frame {number}")
        if number % 3 == 0:
            kernel.receive(sent, f"frame {number}")
        kernel.settle()
    kernel.receive(sent, "the last frames")


@TESTS.test(2, "packets are sent, and their pages are freed behind that, each once")
def transmitted(make):
    kernel, sent = Kernel(make, 2), []
    for number in range(LAPS):
        packet = frame(number, MOST - number)
        if not kernel.transmit(packet):
            raise Fault(f"transmit_page does not take packet {number}, and the adapter has sent all before it",
                        "ring tx", "look TDH")
        sent.append(packet)
        must_be_sent(kernel.bench, sent, f"packet {number}")
        interrupts(kernel.bench)
    count = kernel.bench.ring("tx").count
    if len(kernel.pages.freed) < LAPS - count:
        raise Fault(f"{LAPS} packets were sent, and {len(kernel.pages.freed)} of their pages were freed: kfree is "
                    "called once a page's descriptor is done, at the latest when the descriptor is used again", "ring tx")


@TESTS.test(1, "a full ring takes no page, and frees none")
def full(make):
    kernel, sent = Kernel(make, 3), []
    kernel.bench.held.add("tx")
    count = kernel.bench.ring("tx").count
    for number in range(min(count + 4, OFFERED)):
        if kernel.transmit(frame(number, 300)):
            sent.append(frame(number, 300))
    if len(sent) != count - 1:
        raise Fault(f"transmit_page took {len(sent)} pages while the adapter sent nothing, and a ring of {count} "
                    f"descriptors has room for {count - 1}: TDH = TDT means that the ring is empty", "ring tx", "who TDT")
    if kernel.pages.freed:
        raise Fault("kfree was called for a page that the adapter has not sent yet", "ring tx")
    kernel.bench.release("tx")
    must_be_sent(kernel.bench, sent, "a packet of the full ring")


@TESTS.test(1, "no page is lost")
def kept(make):
    kernel, came, went, held = Kernel(make, 4), [], [], []
    for lap in range(2):
        for _ in range(LAPS // 2):
            came.append(frame(len(came)))
            arrives(kernel, came[-1], f"frame {len(came) - 1}")
            kernel.receive(came, f"frame {len(came) - 1}")
            if kernel.transmit(came[-1]):
                went.append(came[-1])
            interrupts(kernel.bench)
            kernel.settle()
        held.append(kernel.pages.held())
    must_be_sent(kernel.bench, went, "a packet")
    if held[1] > held[0]:
        raise Fault(f"the driver has {held[1]} pages after {LAPS} packets each way, and had {held[0]} after half of "
                    "them: some are never given back")


@TESTS.test(1, "no page is left for a while")
def short(make):
    kernel, sent = Kernel(make, 5), []
    for lap in range(3):
        kernel.pages.is_short = True
        arrives(kernel, frame(2 * lap), "a frame while kalloc gives none")
        interrupts(kernel.bench)
        kernel.pages.is_short = False
        arrives(kernel, frame(2 * lap + 1), "a frame once kalloc gives pages again")
        interrupts(kernel.bench)
        kernel.settle()
        sent += [frame(2 * lap), frame(2 * lap + 1)]
    wanted = [packet for packet in sent if packet in kernel.packets or sent.index(packet) % 2]
    kernel.receive(wanted, "frames; those that came while kalloc gave no page may be dropped")


@TESTS.test(1, "frames come while the routine runs")
def race(make):
    for place in range(PLACES):
        kernel = Kernel(make, 6 + place)
        sent = []

        def turn(_what, count=[0]):
            count[0] += 1
            if count[0] % PLACES == place and len(sent) < LAPS:
                sent.append(frame(len(sent)))
                kernel.bench.arrive(sent[-1])

        for _ in range(OFTEN):
            sent.append(frame(len(sent)))
            kernel.bench.arrive(sent[-1])
            kernel.bench.before_access = turn
            interrupts(kernel.bench)
            kernel.bench.before_access = lambda what: None
            kernel.receive(sent, "frames that came while interrupt ran")
            kernel.settle()
