"""Lab 2: packets are received."""
from fault import Fault
from frames import BROADCAST, STRANGER, frame
from bench import MAC
from received import must_be, must_be_none, must_be_set_up, must_be_stored, must_have_ring, ring_fault
from verdict import Tests

TESTS = Tests("lab2")
LAPS, RING_MOST = 3, 16


def started(make):
    bench = make()
    bench.set_link(True)
    bench.call("start")
    must_have_ring(bench)
    return bench


def arrives(bench, octets, what):
    must_be_stored(bench, bench.arrive(octets), what)


def take(bench, wanted, what):
    given = bench.call("receive")
    if given == "none":
        fault = ring_fault(bench)
        raise Fault(f"receive gave nothing for {what}: {fault.sentence}", *fault.questions)
    must_be(bench, bytes.fromhex(given), wanted, f"what receive gave for {what}")


@TESTS.test(2, "the ring is set up, and one packet is received")
def one(make):
    bench = started(make)
    must_be_set_up(bench)
    must_be_none(bench, bench.call("receive"), "receive, before any frame came,")
    arrives(bench, frame(1), "frame 1")
    take(bench, frame(1), "frame 1")
    must_be_none(bench, bench.call("receive"), "receive, behind the only packet,")


@TESTS.test(2, "packets of every length come whole")
def lengths(make):
    bench = started(make)
    for number, length in enumerate((60, 61, 1514, 256, 1024, 1513)):
        arrives(bench, frame(number, length), f"frame {number} of {length} octets")
        take(bench, frame(number, length), f"frame {number} of {length} octets")


@TESTS.test(2, "packets come in order, three times round the ring")
def laps(make):
    bench = started(make)
    for number in range(LAPS * min(max(bench.ring("rx").count, 8), RING_MOST)):
        arrives(bench, frame(number, 100 + number), f"frame {number}")
        take(bench, frame(number, 100 + number), f"frame {number}")
        must_be_none(bench, bench.call("receive"), f"receive, behind frame {number},")


@TESTS.test(2, "a burst fills the ring, and nothing is lost")
def burst(make):
    bench = started(make)
    for number in range(30):
        arrives(bench, frame(number, 1000), f"frame {number} of a burst")
    for number in range(30):
        take(bench, frame(number, 1000), f"frame {number} of a burst of 30")
    must_be_none(bench, bench.call("receive"), "receive, behind the burst,")


@TESTS.test(1, "frames come while the driver works")
def beside(make):
    bench = started(make)
    sent = []

    def turn(_what):
        if len(sent) < 40:
            sent.append(frame(len(sent)))
            bench.arrive(sent[-1])

    arrives(bench, frame(0), "frame 0")
    sent.append(frame(0))
    bench.before_access = turn
    for number in range(20):
        take(bench, frame(number), f"frame {number}")
        if len(sent) == number + 1:  # (a driver that made no access had no turn beside it)
            turn("")


@TESTS.test(1, "the own address and broadcast pass, a stranger's does not")
def filters(make):
    bench = started(make)
    for number, to in enumerate((MAC, BROADCAST)):
        arrives(bench, frame(number, to=to), f"a frame to {to.hex(':')}")
        take(bench, frame(number, to=to), f"the frame to {to.hex(':')}")
    if bench.arrive(frame(2, to=STRANGER)).is_stored:
        raise Fault(f"the adapter took a frame to {STRANGER.hex(':')}, which is another's: RCTL.UPE lets every "
                    "address pass",
                    "look RCTL", "who RCTL")
