"""What the labs that receive share: what became of a frame, in the words of a fault."""
from bench import Bench, Ring
from bunjelav import Event
from fault import Fault
from frames import is_whole, number_of

DD = 0x01
STATUS_AT = 12
BSIZE = {0: 2048, 1: 1024, 2: 512, 3: 256}


def buffer_size(bench: Bench) -> int:
    return BSIZE[bench.machine["RCTL"] >> 16 & 3]


def must_be_stored(bench: Bench, event: Event, what: str) -> None:
    """The adapter took the frame."""
    if not event.is_stored:
        raise Fault(f"the adapter dropped {what}: {bench.machine.why()}", "why", "who RCTL")


def ring_fault(bench: Bench) -> Fault:
    """What is wrong with the receive ring, where a driver did not get a frame that the adapter took."""
    ring, machine = bench.ring("rx"), bench.machine
    if machine.fifo().frames and ring.head == ring.tail:
        return Fault(f"the frame waits in the adapter, which has no descriptor: RDH = RDT = {ring.head}. The "
                     "descriptors from RDH up to but not RDT are the adapter's; a buffer is given back by a write of "
                     "RDT, and one descriptor always stays the driver's", "ring rx", "who RDT", "who RDH")
    if machine.fifo().frames:
        return Fault(f"the frame waits in the adapter: RDH {ring.head}, RDT {ring.tail}, {ring.count} descriptors",
                     "ring rx", "who RDT")
    last = (ring.head - 1) % ring.count if ring.count else 0
    at = ring.at(last)
    status = bench.octets_at(at, 16)[STATUS_AT]
    state = f"its descriptor, {last} at {at:X}h, has the status {status:02X}"
    if status & DD:
        return Fault(f"the adapter wrote the frame to memory, and {state}: which descriptor did the driver look at?",
                     "ring rx", f"who {at + STATUS_AT:X} 1")
    return Fault(f"the adapter wrote the frame to memory, and {state}: the driver cleared DD and did not take the "
                 "packet",
                 "ring rx", f"who {at + STATUS_AT:X} 1")


def must_be(bench: Bench, given: bytes, wanted: bytes, what: str) -> None:
    """A packet is the frame that arrived."""
    if given == wanted:
        return
    if len(given) != len(wanted):
        raise length_fault(bench, given, wanted, what)
    if is_whole(given):
        raise other_frame(bench, given, wanted, what)
    at = next(place for place in range(len(wanted)) if given[place] != wanted[place])
    questions = ["ring rx", f"who {buffer_of(bench, wanted) or 0:X} 16"]
    raise Fault(f"{what} has other octets than the frame from octet {at} on: does another descriptor have the same "
                "buffer, or is the packet taken from another place?", *questions)


def buffer_of(bench: Bench, frame: bytes) -> int:
    """Where in memory a frame lies, if it does."""
    for event in bench.machine.events():
        if event.kind == "wrote" and bench.octets_at(event.buffer, event.octets) == frame[: event.octets]:
            return event.buffer
    return 0


def length_fault(bench: Bench, given: bytes, wanted: bytes, what: str) -> Fault:
    size = buffer_size(bench)
    if len(wanted) > size:
        return Fault(f"{what} has {len(given)} octets, and the frame has {len(wanted)}: RCTL.BSIZE says that a "
                     f"buffer has {size}, so the adapter filled more than one", "look RCTL", "who RCTL", "ring rx")
    return Fault(f"{what} has {len(given)} octets, and the frame has {len(wanted)}: the length stands in octets 8 "
                 "and 9 of the descriptor, the low one first", "ring rx")


def other_frame(bench: Bench, given: bytes, wanted: bytes, what: str) -> Fault:
    """An older frame, or one that is out of order."""
    ring = bench.ring("rx")
    old, new = number_of(given), number_of(wanted)
    for one in bench.machine.ring("rx"):
        if one.trouble.startswith("over"):
            return Fault(f"{what} is frame {old}, and frame {new} is the next: the buffer of descriptor {one.index} "
                         f"lies {one.trouble}",
                         "ring rx", f"who {ring.at(one.index):X} 8")
    if old >= new:
        return Fault(f"{what} is frame {old}, and frame {new} is the next: the driver passed a descriptor over",
                     "ring rx", "who RDT")
    stale = [index for index in range(ring.count) if is_stale(bench, ring, index)]
    at = ring.at(stale[0] if stale else 0)
    return Fault(f"{what} is frame {old} once more: a descriptor is given back with DD of the lap before in its "
                 "status, so the driver takes its old packet again. Clear the status before RDT gives it back",
                 f"who {at + STATUS_AT:X} 1", "who RDT", "ring rx")


def is_stale(bench: Bench, ring: Ring, index: int) -> bool:
    """Whether a descriptor is the adapter's and has DD all the same."""
    is_adapters = (index - ring.head) % ring.count < (ring.tail - ring.head) % ring.count
    return is_adapters and bool(bench.octets_at(ring.at(index), 16)[STATUS_AT] & DD)


def must_be_none(bench: Bench, given: str, what: str) -> None:
    if given == "none":
        return
    octets = bytes.fromhex(given)
    if is_whole(octets):
        raise Fault(f"{what} gave frame {number_of(octets)} once more, and no new frame came: the status of its "
                    "descriptor was not cleared", *stale_questions(bench))
    raise Fault(f"{what} gave {len(octets)} octets, and no frame came: a packet is there once its descriptor has DD",
                *stale_questions(bench))


def stale_questions(bench: Bench):
    ring = bench.ring("rx")
    stale = [index for index in range(ring.count) if bench.octets_at(ring.at(index), 16)[STATUS_AT] & DD]
    return [f"who {ring.at(index) + STATUS_AT:X} 1" for index in stale[:1]] + ["ring rx"]


def must_have_ring(bench: Bench) -> None:
    ring = bench.ring("rx")
    if not ring.count:
        raise Fault("the adapter has no receive ring: RDLEN is 0. It is the ring's length in octets", "who RDLEN",
                    "who RDBAL")
    if not ring.is_enabled:
        raise Fault("the receiver is off: RCTL.EN is clear", "look RCTL", "who RCTL")


def must_be_set_up(bench: Bench) -> None:
    """The receive ring is as an adapter can use it."""
    for warning in bench.warned:
        words = str(warning).partition(": ")[2]
        raise Fault(f"{words} ({warning.rule})", f"who {words.split()[0].partition('.')[0]}")
    must_have_ring(bench)
    ring = bench.ring("rx")
    if not ring.has_work():
        raise Fault(f"the adapter has no descriptor: RDH {ring.head}, RDT {ring.tail}. Those from RDH up to but not "
                    "RDT are its own",
                    "ring rx", "who RDT")
    for one in bench.machine.ring("rx"):
        if one.owned and one.trouble:
            raise Fault(f"descriptor {one.index} has the buffer {one.address:X}h: {one.trouble}",
                        f"who {ring.at(one.index):X} 8", "ring rx")
