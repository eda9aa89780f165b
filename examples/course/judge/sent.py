"""What the labs that send share: what became of a packet, in the words of a fault."""
from bench import Bench
from fault import Fault
from frames import LEAST, is_whole, number_of

COMMAND_AT, LENGTH_AT = 11, 8
# octets that `who` is asked of at most
WATCHED = 16


def on_wire(frame: bytes) -> bytes:
    """A packet as it has to go out: padded to the least length."""
    return frame.ljust(LEAST, b"\0")


def must_be_set_up(bench: Bench) -> None:
    for warning in bench.warned:
        words = str(warning).partition(": ")[2]
        raise Fault(f"{words} ({warning.rule})", f"who {words.split()[0].partition('.')[0]}")
    must_have_ring(bench)


def must_have_ring(bench: Bench) -> None:
    ring = bench.ring("tx")
    if not ring.count:
        raise Fault("the adapter has no transmit ring: TDLEN is 0. It is the ring's length in octets", "who TDLEN",
                    "who TDBAL")
    if not ring.is_enabled:
        raise Fault("the transmitter is off: TCTL.EN is clear", "look TCTL", "who TCTL")


def must_be_sent(bench: Bench, sent: list, what: str) -> None:
    """The frames of the wire are these, and no others."""
    wire = bench.machine.wire
    for at, wanted in enumerate(sent):
        if at >= len(wire):
            raise missing(bench, what)
        if wire[at] != on_wire(wanted):
            raise other(bench, wire[at], wanted, what)
    if len(wire) > len(sent):
        raise Fault(f"{len(wire)} frames are on the wire, and {len(sent)} packets were taken: one was sent twice",
                    "ring tx", "who TDT all")


def missing(bench: Bench, what: str) -> Fault:
    """A packet that was taken is not on the wire."""
    ring, machine = bench.ring("tx"), bench.machine
    gathered = len(machine.fifo().gathered)
    if gathered:
        at = ring.at((ring.head - 1) % ring.count)
        return Fault(f"{what} is not on the wire: the adapter has gathered {gathered} octets of it, and waits for a "
                     "descriptor with EOP in its command", f"who {at + COMMAND_AT:X} 1", "ring tx")
    if ring.head == ring.tail and machine.last_change("TDT") is None:
        return Fault(f"{what} is not on the wire: TDT was never moved, and gives the adapter what lies before it",
                     "who TDT", "ring tx")
    if ring.head == ring.tail and is_early(bench, ring.at((ring.head - 1) % ring.count)):
        return early(bench, what)
    for warning in bench.warned:
        return Fault(f"{what} is not on the wire: {str(warning).partition(': ')[2]}", "ring tx", "who TDT")
    return Fault(f"{what} is not on the wire: TDH {ring.head}, TDT {ring.tail}", "why", "ring tx", "who TDT")


def early(bench: Bench, what: str) -> Fault:
    """The adapter went through a descriptor before the driver wrote it."""
    ring = bench.ring("tx")
    index = (ring.head - 1) % ring.count
    return Fault(f"{what} is not on the wire: TDT gave descriptor {index} away before it was written, so the adapter "
                 "read what stood there before. TDT is written last", "who TDT", f"who {ring.at(index):X} 16", "history 5")


def is_early(bench: Bench, at: int) -> bool:
    """Whether a descriptor was written since the tail was: what the driver stored is brought over, and asked for."""
    bench.machine.source("end", 0)
    bench.bring_rings()
    written, moved = bench.machine.last_change(slice(at, at + 12)), bench.machine.last_change("TDT")
    return written is not None and moved is not None and written.event.kind == "poke" and written.back < moved.back


def other(bench: Bench, given: bytes, wanted: bytes, what: str) -> Fault:
    """Another frame is on the wire than that which is due."""
    ring = bench.ring("tx")
    at = ring.at((ring.head - 1) % ring.count)
    if given == wanted and len(wanted) < LEAST:
        return Fault(f"{what} went out with {len(given)} octets, and a frame has {LEAST} at least: PSP of TCTL pads "
                     "it", "look TCTL", "who TCTL")
    if is_early(bench, at):
        return Fault(f"{what} is not what went out: TDT gave the descriptor away before it was written, so the "
                     "adapter sent what stood there before. TDT is written last",
                     "who TDT", f"who {at:X} 16", "history 5")
    if len(given) == len(on_wire(wanted)):
        place = next(place for place in range(len(given)) if given[place] != on_wire(wanted)[place])
        there = buffer_of(bench) + place // WATCHED * WATCHED
        return Fault(f"{what} has other octets on the wire, from octet {place} on: is its buffer another's too, or "
                     "written again before the adapter has sent it?", "ring tx", f"who {there:X} {WATCHED} all")
    if is_whole(given):
        return Fault(f"frame {number_of(given)} of {len(given)} octets is on the wire where frame "
                     f"{number_of(wanted)} of {len(wanted)} is due: was a descriptor written again that the adapter "
                     "had not sent yet?", "ring tx", f"who {at:X} 16 all")
    return Fault(f"{what} went out with {len(given)} octets, and it has {len(wanted)}: the length is octets 8 and 9 "
                 "of the descriptor",
                 "ring tx", f"who {at + LENGTH_AT:X} 2")


def buffer_of(bench: Bench) -> int:
    """Where the adapter read the newest octets that it sent."""
    return next((event.buffer for event in bench.machine.events() if event.kind == "sent"), 0)
