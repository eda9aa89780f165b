"""Lab 3: packets are sent."""
from fault import Fault
from frames import MOST, frame
from sent import must_be_sent, must_be_set_up, must_have_ring
from verdict import Tests

TESTS = Tests("lab3")
LAPS = 3
# packets that are offered to a ring that stands still: more than any ring of this lab has
OFFERED, RING_MOST = 40, 16


def started(make):
    bench = make()
    bench.set_link(True)
    bench.call("start")
    must_have_ring(bench)
    return bench


def send(bench, packet):
    answer = bench.call("transmit", packet.hex())
    if answer not in ("0", "1"):
        raise Fault(f"transmit gave {answer}, and it says whether the packet is taken: true or false")
    return answer == "1"


def must_send(bench, packet, what):
    if not send(bench, packet):
        ring = bench.ring("tx")
        raise Fault(f"transmit does not take {what}, and the ring has room: TDH {ring.head}, TDT {ring.tail}",
                    "ring tx", "who TDT")


@TESTS.test(2, "the ring is set up, and one packet goes out")
def one(make):
    bench = started(make)
    must_be_set_up(bench)
    must_send(bench, frame(1), "the first packet")
    must_be_sent(bench, [frame(1)], "the first packet")


@TESTS.test(2, "packets go out in order, three times round the ring")
def laps(make):
    bench, sent = started(make), []
    for number in range(LAPS * min(max(bench.ring("tx").count, 8), RING_MOST)):
        packet = frame(number, 100 + 29 * number)
        must_send(bench, packet, f"packet {number}")
        sent.append(packet)
        must_be_sent(bench, sent, f"packet {number}")


def fill(bench):
    """Packets for a ring that stands still, until none is taken."""
    taken = []
    for number in range(OFFERED):
        if not send(bench, frame(number, 200)):
            return taken
        taken.append(frame(number, 200))
        ring = bench.ring("tx")
        if len(taken) >= ring.count > 0:
            at = ring.at((ring.tail - 1) % ring.count)
            raise Fault(f"transmit took {len(taken)} packets, and the adapter, which has sent none of them, has "
                        f"{ring.count} descriptors: one that is still the adapter's was written again. One always "
                        "stays free, or TDH = TDT would mean that the ring is empty",
                        "ring tx", f"who {at:X} 16 all", "who TDT")
    return taken


@TESTS.test(2, "a full ring takes no packet, and loses none")
def full(make):
    bench = started(make)
    bench.held.add("tx")
    taken = fill(bench)
    count = bench.ring("tx").count
    if len(taken) < count - 1:
        raise Fault(f"transmit took {len(taken)} packets, and a ring of {count} descriptors has room for {count - 1}",
                    "ring tx", "who TDT")
    bench.release("tx")
    must_be_sent(bench, taken, "a packet of the full ring")


@TESTS.test(1, "there is room again once packets are sent")
def again(make):
    bench = started(make)
    sent = []
    for lap in range(LAPS):
        bench.held.add("tx")
        taken = fill(bench)
        bench.release("tx")
        sent += taken
        if not taken:
            raise Fault("transmit takes no packet any more, though the adapter has sent all of them: TDH tells how "
                        "far it is, and DD of a descriptor's status, where its command had RS",
                        "ring tx", "look TDH", "who TDT")
        must_be_sent(bench, sent, f"a packet of lap {lap}")


@TESTS.test(1, "the packet's memory is its owner's again, and the longest packet goes out")
def longest(make):
    bench, sent = started(make), []
    bench.held.add("tx")
    for number in range(3):
        must_send(bench, frame(number, MOST), f"a packet of {MOST} octets")
        sent.append(frame(number, MOST))
    bench.release("tx")
    must_be_sent(bench, sent, f"a packet of {MOST} octets")


@TESTS.test(1, "a short packet is padded")
def short(make):
    bench, sent = started(make), []
    for number, length in enumerate((14, 20, 59, 60)):
        must_send(bench, frame(number, length), f"a packet of {length} octets")
        sent.append(frame(number, length))
        must_be_sent(bench, sent, f"a packet of {length} octets")


@TESTS.test(1, "a packet that is too long is not taken")
def long(make):
    bench = started(make)
    must_send(bench, frame(0), "a packet of 60 octets")
    if send(bench, frame(1, MOST + 1)):
        raise Fault(f"transmit took a packet of {MOST + 1} octets, and an Ethernet frame has {MOST} at most, without "
                    "its check sequence", "ring tx")
    must_be_sent(bench, [frame(0)], "a packet of 60 octets")
    must_send(bench, frame(2), "a packet behind that")
    must_be_sent(bench, [frame(0), frame(2)], "a packet behind one that was not taken")
