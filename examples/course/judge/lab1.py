"""Lab 1: the registers are read."""
import random

from fault import Fault
from frames import frame
from verdict import Tests

TESTS = Tests("lab1")
WORDS, GOOD_SUM = 64, 0xBABA
RCTL_EN_AND_BAM = 1 << 1 | 1 << 15
DRAWN = random.Random(82540)


def eeprom(mac, is_good=True):
    """64 words that begin with an address, and sum to BABA, or not."""
    words = [int.from_bytes(mac[at : at + 2], "little") for at in (0, 2, 4)]
    words += [DRAWN.randrange(0x10000) for _ in range(WORDS - 4)]
    return [*words, (GOOD_SUM - sum(words) + (not is_good)) % 0x10000]


def number(bench, name, *words):
    answer = bench.call(name, *words)
    if not answer.isdecimal():
        raise Fault(f"{name} gave {answer}, and a number is wanted")
    return int(answer)


@TESTS.test(2, "the link is told as it is")
def link(make):
    bench = make()
    for is_up in (False, True, False):
        bench.set_link(is_up)
        if number(bench, "link_is_up") != is_up:
            status = bench.machine["STATUS"]
            told, is_so = ("down", "up") if is_up else ("up", "down")
            raise Fault(f"link_is_up says that the link is {told}, and it is {is_so}: STATUS is {status:08X}, and LU "
                        "is its bit 1 (bit 0 is FD, which is always set)", "look STATUS", "who link")


@TESTS.test(2, "the Ethernet address has its octets in order")
def mac(make):
    for _ in range(2):
        wanted = bytes([0x52, *DRAWN.sample(range(1, 256), 5)])
        bench = make(mac=wanted)
        given = bytes.fromhex(bench.call("mac_address"))
        if given != wanted:
            is_turned = sorted(given) == sorted(wanted)
            hint = "it stands in RAL0 and RAH0"
            if is_turned:
                hint = "octet 0 is in the lowest bits of RAL0, octet 4 in those of RAH0"
            raise Fault(f"mac_address gave {given.hex(':')}, and it is {wanted.hex(':')}: {hint}", "look RAL0",
                        "look RAH0")


@TESTS.test(2, "a word of the EEPROM")
def word(make):
    for at in (1, 0, 2):
        mac = bytes([0x52, *DRAWN.sample(range(1, 256), 5)])
        bench = make(mac=mac)
        wanted = int.from_bytes(mac[2 * at : 2 * at + 2], "little")  # (words 0 to 2 are the address)
        given = number(bench, "eeprom_word", at)
        if given != wanted:
            raise Fault(f"eeprom_word({at}) gave {given:04X}, and the word is {wanted:04X}: {why_no_word(bench, at)}",
                        "look EERD", "who EERD")


def why_no_word(bench, at):
    if "write EERD" not in bench.accesses:
        return "EERD was not written: START in it begins a read"
    if bench.machine["EERD"] >> 8 & 0xFF != at:
        return "EERD had another address: it stands in bits 15:8, beside START"
    if "read EERD" not in bench.accesses:
        return "EERD was not read behind that"
    return "DATA is bits 31:16 of EERD, and stands there once DONE is set"


@TESTS.test(2, "the sum of the EEPROM")
def checksum(make):
    for is_good in (True, False, True):
        bench = make(eeprom=eeprom(bytes.fromhex("525400123456"), is_good))
        if number(bench, "eeprom_is_good") != is_good:
            reads = bench.accesses.count("write EERD")
            hint = f"{reads} words were read, and there are 64" if reads != WORDS else \
                "all 64 words, the last too, sum to BABA, modulo 65536"
            told = "no of words that sum to BABA" if is_good else "yes of words that sum to BABB"
            raise Fault(f"eeprom_is_good says {told}: {hint}", "who EERD")


@TESTS.test(2, "frames are counted, all of them")
def counter(make):
    bench = make()
    bench.set_link(True)
    bench.machine.write("RCTL", RCTL_EN_AND_BAM)
    total = 0
    for more in (3, 2, 0, 4):
        for at in range(more):
            bench.arrive(frame(total + at))
        total += more
        given = number(bench, "frames_received")
        if given != total:
            hint = "a read of GPRC clears it, so the driver keeps the sum" if given == more else "GPRC counts them"
            raise Fault(f"frames_received gave {given}, and {total} frames came since the start: {hint}",
                        "look GPRC", "who GPRC")
