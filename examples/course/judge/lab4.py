"""Lab 4: interrupts."""
from fault import Fault
from frames import frame
from received import must_be, must_be_set_up, must_be_stored, must_have_ring, ring_fault
from verdict import Tests

TESTS = Tests("lab4")
RXT0, LSC = 1 << 7, 1 << 2
# how often the routine is called while the line is up: more often than frames come within a test
CALLS = 200
# the FIFO's octets and the ring's buffers hold so many of the longest frames or fewer
FLOOD, FLOOD_OCTETS = 60, 1514


class Stack:
    """What the rest of the system was handed."""

    def __init__(self, bench):
        self.bench = bench
        self.packets, self.links = [], []
        bench.serve("deliver", self._deliver)
        bench.serve("link", self._link)

    def _deliver(self, octets):
        self.packets.append(bytes.fromhex(octets))
        return "ok"

    def _link(self, is_up):
        self.links.append(is_up == "1")
        return "ok"


def started(make):
    bench = make()
    bench.set_link(True)
    bench.call("start")
    must_have_ring(bench)
    return bench, Stack(bench)


def interrupts(bench):
    """The routine runs as long as the line is up."""
    for _ in range(CALLS):
        if not bench.machine.line:
            return
        bench.call("interrupt")
    causes = bench.machine["ICR"]
    raise Fault(f"the interrupt line is up after {CALLS} calls of interrupt (ICR {causes:08X}): a cause is cleared "
                "by a read of ICR, or by a write of its bit there. Until then the line stays up, and a system does "
                "nothing but call the routine",
                "who line", "look ICR", "who ICR")


def must_be_up(bench, cause, what):
    if bench.machine.line:
        return
    if bench.machine["IMS"] & cause == 0:
        raise Fault(f"{what}, and the interrupt line stays down: IMS ({bench.machine['IMS']:08X}) does not let the "
                    "cause through",
                    "look IMS", "who IMS", "look ICR")
    raise Fault(f"{what}, and the interrupt line is down: ICR is {bench.machine['ICR']:08X}", "who line", "who ICR")


def must_be_delivered(bench, stack, wanted, what):
    """These packets were delivered, in this order, each once."""
    for at, packet in enumerate(stack.packets[: len(wanted)]):
        must_be(bench, packet, wanted[at], f"what was delivered for {what}")
    if len(stack.packets) > len(wanted):
        raise Fault(f"{len(stack.packets)} packets were delivered, and {len(wanted)} came: one was delivered twice",
                    "ring rx")
    if len(stack.packets) < len(wanted):
        raise lost(bench, f"{len(stack.packets)} of {len(wanted)} packets were delivered ({what})")


def lost(bench, what):
    """Frames lie in memory, and the routine does not come for them."""
    ring = bench.ring("rx")
    if bench.machine.fifo().frames:
        fault = ring_fault(bench)
        return Fault(f"{what}: {fault.sentence}", *fault.questions)
    cleared = bench.machine.last_change("ICR")
    by = "a read" if cleared and cleared.event.kind == "read" else "a write"
    return Fault(f"{what}, and the line is down: the newest frame lies in memory, its descriptor "
                 f"{(ring.head - 1) % ring.count} has DD, and {by} of ICR took its cause away, behind which the "
                 "driver did not look at the ring once more", "who line", "who ICR", "ring rx")


@TESTS.test(1, "the adapter is set up, and interrupts nobody yet")
def set_up(make):
    bench, _ = started(make)
    must_be_set_up(bench)
    interrupts(bench)
    if bench.call("interrupt") != "0":
        raise Fault("interrupt gave true, and the adapter had no cause: the line may be another device's, so the "
                    "routine gives true only where ICR had one", "look ICR", "who ICR")


@TESTS.test(2, "a packet interrupts, and is delivered")
def one(make):
    bench, stack = started(make)
    interrupts(bench)
    for number in range(20):
        must_be_stored(bench, bench.arrive(frame(number)), f"frame {number}")
        must_be_up(bench, RXT0, f"frame {number} came")
        answer = bench.call("interrupt")
        if answer != "1":
            raise Fault(f"interrupt gave {answer}, and the adapter had interrupted: it gives true where ICR had a "
                        "cause", "who ICR")
        interrupts(bench)
        must_be_delivered(bench, stack, [frame(number) for number in range(number + 1)], f"frame {number}")


@TESTS.test(2, "one interrupt, more than one packet")
def burst(make):
    bench, stack = started(make)
    interrupts(bench)
    sent = []
    for size in (5, 2, 30, 1):
        for _ in range(size):
            sent.append(frame(len(sent), 800))
            must_be_stored(bench, bench.arrive(sent[-1]), f"frame {len(sent) - 1}")
        must_be_up(bench, RXT0, f"{size} frames came")
        interrupts(bench)
        must_be_delivered(bench, stack, sent, f"{size} frames before one interrupt")


@TESTS.test(2, "a frame comes while the routine runs")
def race(make):
    for place in range(6):
        bench, stack = started(make)
        interrupts(bench)
        sent = [frame(0)]
        for lap in range(6):
            before_access(bench, sent, place)
            bench.arrive(sent[-1])
            interrupts(bench)
            bench.before_access = lambda what: None
            must_be_delivered(bench, stack, sent, f"the newest came before access {place + 1} of interrupt")
            sent.append(frame(len(sent)))


def before_access(bench, sent, place):
    """One frame comes before the access of this number."""
    count = [0]

    def turn(_what):
        count[0] += 1
        if count[0] == place + 1:
            sent.append(frame(len(sent)))
            bench.arrive(sent[-1])

    bench.before_access = turn


@TESTS.test(1, "the link goes down and up")
def link(make):
    bench, stack = started(make)
    interrupts(bench)
    stack.links.clear()
    for is_up in (False, True, False):
        bench.set_link(is_up)
        word = "up" if is_up else "down"
        must_be_up(bench, LSC, f"the link went {word}")
        interrupts(bench)
        if stack.links[-1:] != [is_up]:
            told = "nothing" if not stack.links else f"that it is {'up' if stack.links[-1] else 'down'}"
            raise Fault(f"the link went {word}, and link_changed was told {told}: LSC of ICR says that it changed, "
                        "LU of STATUS how it is",
                        "who link", "look STATUS", "who ICR")


@TESTS.test(2, "a flood fills the adapter, and it goes on behind that")
def flood(make):
    bench, stack = started(make)
    interrupts(bench)
    sent = []
    for _ in range(2):
        for _ in range(FLOOD):
            packet = frame(len(sent), FLOOD_OCTETS)
            if bench.arrive(packet).is_stored:
                sent.append(packet)
        interrupts(bench)
        must_be_delivered(bench, stack, sent, "a flood, of which the adapter kept these")
        sent.append(frame(len(sent)))
        must_be_stored(bench, bench.arrive(sent[-1]), "a frame behind the flood")
        must_be_up(bench, RXT0, "a frame came behind the flood")
        interrupts(bench)
        must_be_delivered(bench, stack, sent, "a frame behind the flood")
