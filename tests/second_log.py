"""A second reading of logs of register accesses, and of the script that em_trace makes of them.

It is written from the formats' documentation and from docs/traces.md, not from the code.
"""
import itertools
import re

from second_reading import IN_WORDS as REGISTERS

SPACE = 0x20000
HEX = re.compile(rb"0[xX]([0-9a-fA-F]{1,16})")
DECIMAL = re.compile(rb"[0-9]{1,7}")
EVENT = re.compile(rb"(?:.*:)?memory_region_ops_(read|write)", re.DOTALL)
PRINTED = re.compile(rb"(?:.*[^a-zA-Z])?(read|write)", re.DOTALL | re.IGNORECASE)
STAMP = re.compile(rb"\[?([0-9]+\.[0-9]{6})[\]:]?")
STORED = re.compile(rb"(?:.*[^a-zA-Z])?mem", re.DOTALL | re.IGNORECASE)
OCTETS = re.compile(rb"(?:[0-9a-fA-F]{2})+")
NOTHING, ELSEWHERE, FAULT = "nothing", "elsewhere", "fault"
# how many octets of a line are read, how many a comment has, and how many octets a line of a script writes to memory
MOST_KEPT, MOST_SHOWN, MOST_POKED = 65_536, 4_096, 16_384


def number(word):
    """The number that `0x` and hexadecimal digits write, or decimal ones."""
    if found := HEX.fullmatch(word):
        return int(found[1], 16)
    return int(word) if DECIMAL.fullmatch(word) else None


def hexadecimal(word):
    found = HEX.fullmatch(word)
    return int(found[1], 16) if found else None


def access(way, address, value, size):
    if None in (address, value, size) or size not in (1, 2, 4, 8) or value >= 1 << 8 * size:
        return FAULT
    return way, address, value, size


def field(words, name):
    """Takes the text of the field of this name off the front of words; none where another one stands there."""
    if not words:
        return None
    word = words.pop(0)
    if word == name:
        return words.pop(0) if words else None
    return word[len(name) + 1 :] if word.startswith(name + b"=") else None


def qemu(words, region):
    found = words and EVENT.fullmatch(words[0])
    if not found:
        return NOTHING
    rest, texts = words[5:], []
    for name in (b"addr", b"value", b"size", b"name"):
        text = field(rest, name)
        if text is None:
            return FAULT
        texts.append(text)
    address, value, size, name = texts
    if len(name) > 1 and name[:1] == name[-1:] == b"'":
        name = name[1:-1]
    elif len(name) > 2 and name[:2] == b"b'" and name[-1:] == b"'":
        name = name[2:-1]
    if name != region:
        return ELSEWHERE
    return access(found[1].decode(), hexadecimal(address), hexadecimal(value), number(size))


def mmiotrace(words, _region):
    keyword, rest = words[:1], words[1:]
    if keyword in ([b"R"], [b"W"]):
        # width, timestamp, map id, physical, value, PC, PID
        if len(rest) < 7:
            return FAULT
        way = "read" if keyword == [b"R"] else "write"
        return access(way, hexadecimal(rest[3]), hexadecimal(rest[4]), number(rest[0]))
    if keyword == [b"MAP"]:
        # timestamp, map id, physical, virtual, length, PC, PID
        if len(rest) < 5 or None in (hexadecimal(rest[2]), hexadecimal(rest[4])):
            return FAULT
        return ("base", hexadecimal(rest[2])) if hexadecimal(rest[4]) == SPACE else NOTHING
    return NOTHING


def begins_hex(words):
    return bool(words) and words[0][:2] in (b"0x", b"0X")


def plain(words, _region):
    for at, word in enumerate(words):
        found, rest = PRINTED.fullmatch(word), words[at + 1 :]
        if found and begins_hex(rest):
            way, address = found[1].lower().decode(), hexadecimal(rest[0])
            if address is not None and way == "read" and not begins_hex(rest[1:]):
                return way, address, None, 4
            return access(way, address, hexadecimal(rest[1]) if len(rest) > 1 else None, 4)
        if STORED.fullmatch(word) and rest and hexadecimal(rest[0]) is not None:
            if len(rest) != 2 or not OCTETS.fullmatch(rest[1]):
                return FAULT
            return "memory", hexadecimal(rest[0]), bytes.fromhex(rest[1].decode())
    return NOTHING


FORMS = {"qemu": qemu, "mmiotrace": mmiotrace, "plain": plain}


class Log:
    def __init__(self, form=None, region=b"e1000-mmio", base=None):
        self.form, self.region, self.base = form, region, base

    def read(self, line):
        """What a line is: `nothing`, `elsewhere`, `fault`; way, offset, value and size; or `memory`, address and octets."""
        words = [word for word in re.split(rb"[ \t\r]", line) if word]
        if self.form is None:
            fits = (name for name, form in FORMS.items() if form([*words], self.region) not in (NOTHING, FAULT))
            self.form = next(fits, None)
        said = FORMS[self.form]([*words], self.region) if self.form else NOTHING
        if self.base is None and not isinstance(said, str):
            if said[0] == "base":
                self.base = said[1]
            elif self.form != "mmiotrace" and said[0] != "memory":
                self.base = said[1] - said[1] % SPACE if self.form == "qemu" else 0
        if isinstance(said, str):
            return said
        if said[0] == "base":
            return NOTHING
        if said[0] == "memory":
            return FAULT if len(line) >= MOST_KEPT else said
        way, address, value, size = said
        if self.base is None or not 0 <= address - self.base < SPACE:
            return ELSEWHERE
        return way, address - self.base, value, size


def said_of(way, offset, value):
    if way == "write":
        return f"w {offset:05X} {value:08X}"
    return f"r {offset:05X}" + ("" if value is None else f" = {value:08X}")


def buffer_size(rctl):
    size = [2048, 1024, 512, 256][rctl >> 16 & 3]
    return size * 16 if rctl & 1 << 25 and size < 2048 else size


class Frame:
    """A frame of a capture: its octets, how many it had, and when it was captured, in nanoseconds, or none."""

    def __init__(self, octets, size=None, time=None):
        self.octets, self.size, self.time = octets, len(octets) if size is None else size, time


def seconds(time):
    """A log's time, of nanoseconds."""
    return f"{time // 10**9}.{time // 1000 % 10**6:06}"


def arrival(frame, number, why, is_open, rctl):
    """A frame's comment, the line that brings it, with its moment if it has one, and the receive engine's steps."""
    size = max(60, frame.size)
    unpadded = frame.size < 60 and len(frame.octets) < 60
    captured = f", captured at {frame.time // 10**9}.{frame.time % 10**9:09}" if frame.time is not None else ""
    said = f"# frame {number}{captured}: {why}"
    said += "" if is_open else "; the receiver is disabled here"
    said += "; padded to 60 octets" if unpadded else ""
    padded = f" {size}" if size > len(frame.octets) else ""
    came = " # " + why.split()[1] if why.startswith("at ") else ""
    return [said, f"arrive {frame.octets.hex().upper()}{padded}{came}", *["rx"] * -(-size // buffer_size(rctl))]


BY_TIME = "at {} by its time"
LATER = "at {} by its time, and guessed to come before the next read of ICR with RXT0"
CAUSE = "guessed, by a read of ICR with RXT0"
NOTHING_TELLS = "guessed, since no read of ICR tells of it"
ASKED = "where --at says"


class Places:
    """The places of a log, by docs/traces.md: each has a line, a time, whether the receiver is enabled, and whether the
    access is a read of ICR that has RXT0 (True), one that has not (False), or something else (None)."""

    def __init__(self, log, reader):
        self.places, self.sends, self.address = [], [], None
        self.enabled, sends, ring, tail, low, self.lines = False, False, 0, 0, 0, 0
        for count, line in enumerate(lines_of(log), 1):
            self.lines, said = count, reader.read(line)
            if isinstance(said, str) or said[0] == "memory":
                continue
            (way, offset, value, size), time = said, time_of(reader.form, line)
            is_icr = way == "read" and offset == 0xC0 and size == 4 and value is not None
            self.places.append((count, time, self.enabled, bool(value & 0x80) if is_icr else None))
            if size != 4 or value is None:
                continue
            if offset == 0x5400:
                low = value
            elif offset == 0x5404 and value >> 31 and self.address is None:
                self.address = low.to_bytes(4, "little") + value.to_bytes(4, "little")[:2]
            if way == "read":
                continue
            if offset == 0x0 and value & 0x04000000:
                self.enabled, sends, ring, tail = False, False, 0, 0
            elif offset == 0x100:
                self.enabled = bool(value & 2)
            elif offset == 0x400:
                sends = bool(value & 2)
            elif offset == 0x3808:
                ring = value // 16
            elif offset == 0x3818:
                was, tail = tail, value & 0xFFFF
                if sends and was < ring and tail < ring and was != tail:
                    self.sends.append((time, (tail - was) % ring))

    def is_open(self, index):
        return self.places[index][2] if index < len(self.places) else self.enabled

    def line(self, index):
        return self.places[index][0] if index < len(self.places) else None

    def told(self, index):
        return self.places[index][3] if index < len(self.places) else None


def time_of(form, line):
    """When an access was logged, in nanoseconds."""
    words = [word for word in re.split(rb"[ \t\r]", line) if word]
    text = None
    if form == "qemu" and (found := re.match(rb"[^@]*@([^:]*):", words[0])):
        text = found[1]
    elif form == "mmiotrace":
        text = words[2]
    elif form == "plain":
        text = stamp(words)
    found = text and re.fullmatch(rb"([0-9]*)\.([0-9]{6})", text)
    return (int(found[1]) * 10**6 + int(found[2])) * 1000 if found and found[1] else None


def stamp(words):
    """The first word that is a time, before the one that says what the line is of."""
    for word, *rest in (words[at:] for at in range(len(words))):
        if found := STAMP.fullmatch(word):
            return found[1]
        is_memory = STORED.fullmatch(word) and rest and hexadecimal(rest[0]) is not None
        if is_memory or PRINTED.fullmatch(word) and begins_hex(rest):
            return None
    return None


def clock_of(places, own):
    """For each own frame, by its number, when it was captured and when its write was logged."""
    if len(own) == sum(descriptors for _, descriptors in places.sends):
        times = [time for time, descriptors in places.sends for _ in range(descriptors)]
    else:
        times = [time for time, _ in places.sends]
    if len(times) != len(own):
        return []
    return [
        (number, frame.time, time) for (number, frame), time in zip(own, times) if None not in (frame.time, time)
    ]


def moment_of(clock, number, frame):
    before = [at for at in clock if at[0] < number] or clock[:1]
    if not before or frame.time is None:
        return None
    _, captured, logged = before[-1]
    return max(0, logged + frame.time - captured)


def placed(places, frames):
    """The frames that arrive: their numbers, their lines, why they arrive there, and whether the receiver is enabled."""
    numbered = [*enumerate(frames, 1)]
    own = [(number, frame) for number, frame in numbered if frame.octets[6:12] == places.address]
    clock, count, last, cause, start = clock_of(places, own), len(places.places), 0, 0, 0
    arrivals = []
    for number, frame in numbered:
        if (number, frame) in own:
            continue
        moment = moment_of(clock, number, frame)
        if moment is not None:
            logged = (k for k in range(start, count) if (places.places[k][1] or -1) >= moment)
            start = next(logged, count)
            read = next((k for k in range(start, count) if places.told(k)), None)
            quiet = [k for k in range(start, read or start) if places.told(k) is False]
            if read is not None and quiet:
                index, why = last_open(places, quiet[-1] + 1, read), LATER.format(seconds(moment))
            else:
                to = count if read is None else read
                index = next((k for k in range(start, to + 1) if places.is_open(k)), start)
                why = BY_TIME.format(seconds(moment))
        else:
            read = next((k for k in range(cause, count) if places.told(k)), None)
            if read is not None:
                quiet = [k for k in range(last, read) if places.told(k) is False]
                index, why, cause = last_open(places, quiet[-1] + 1 if quiet else last, read), CAUSE, read + 1
            else:
                index, why, cause = last_open(places, last, count), NOTHING_TELLS, count
        if why.endswith("by its time"):
            guessed = itertools.takewhile(lambda at: "guessed" in at[3] and at[2] > index, reversed(arrivals))
            for at_read in [*guessed]:
                at_read[2] = index
        last = max(index, arrivals[-1][2] if arrivals else 0)
        arrivals.append([number, frame, last, why])
    return [(number, frame, places.line(k), why, places.is_open(k)) for number, frame, k, why in arrivals]


def asked(places, frames, at):
    """The same, where all frames are to arrive before a line."""
    index = next((k for k in range(len(places.places)) if places.line(k) >= at), len(places.places))
    line = at if at <= places.lines else None
    came = [(number, frame) for number, frame in enumerate(frames, 1) if frame.octets[6:12] != places.address]
    return [(number, frame, line, ASKED, places.is_open(index)) for number, frame in came]


def last_open(places, first, last):
    """The last of these places where the receiver is enabled, or the last."""
    return next((k for k in range(last, first - 1, -1) if places.is_open(k)), last)


def lines_of(log):
    lines = log.split(b"\n")
    return [line[:MOST_KEPT] for line in (lines if lines[-1] else lines[:-1])]


class Poll:
    """A read that is repeated with the same answer: its first line stands for all of them. Of a register that a read
    clears, only reads that gave 0 are the same."""

    def __init__(self, keeps):
        self.keeps, self.read, self.more, self.last, self.time = keeps, None, 0, 0, None

    def takes(self, count, said, time):
        if said != self.read:
            return False
        self.more, self.last, self.time = self.more + 1, count, time
        return True

    def ended(self):
        """The comment that tells of the reads that were left out, if some were."""
        more, self.more, self.read = self.more, 0, None
        if not more:
            return []
        return [f"# {more} more read{'s' * (more > 1)} gave the same, the last in line {self.last}{when(self.time)}"]

    def begin(self, said):
        way, offset, value, _ = said
        if not self.keeps and way == "read" and value is not None and not (value and cleared_by_a_read(offset)):
            self.read = said


def cleared_by_a_read(offset):
    return REGISTERS.get(offset) == "ICR" or 0x4000 <= offset < 0x4100 and offset in REGISTERS


def when(time):
    """The end of a comment that tells when something was logged."""
    return "" if time is None else f", at {seconds(time)}"


class Rings:
    """Where the rings lie whose tails a log writes, and what memory that wants."""

    def __init__(self):
        self.words, self.lie = {}, []

    def write(self, name, value):
        self.words[name] = value
        side, length = name[:2], self.words.get(f"{name[:2]}LEN", 0)
        if name in ("RDT", "TDT") and length > 0:
            base = self.words.get(f"{side}BAH", 0) * 2**32 + self.words.get(f"{side}BAL", 0)
            self.lie.append((base, base + length))

    def head(self):
        """The comment that says so, where 64 KiB from address 0 on are not enough and some memory is."""
        first, end = min((one[0] for one in self.lie), default=0), max((one[1] for one in self.lie), default=0)
        sizes = [2**power for power in range(27, 41) if first >> power == (end - 1) >> power]
        if end <= 65_536 or not sizes or first >= 2**40:
            return []
        base = first // sizes[0] * sizes[0]
        return [f"# em_debug --memory {sizes[0] // 2**20}M" + (f" --base {base:X}" if base else "")]


def poked(address, octets):
    """The lines that write octets to memory."""
    places = range(0, len(octets), MOST_POKED)
    return [f"poke {(address + at) % 2**64:X} {octets[at : at + MOST_POKED].hex().upper()}" for at in places]


def script_of(log, reader, missing, frames=(), at=None, link=True, others=True, polls=False, lines=(1, None)):
    """The script of a log, as octets. `missing` has the names of registers that the model lacks; without `others`,
    accesses of something else are no comments; with `polls`, each read of a poll has its line; `lines` are the first
    and the last that are translated."""
    script, rctl, head = [], 0, ["link up", "w 000C0 00000004"] if link else []
    places = Places(log, Log(reader.form, reader.region, reader.base))
    if at is None:
        frames = placed(places, frames)
    else:
        frames = asked(places, frames, at)
    accesses, poll, rings = 0, Poll(polls), Rings()
    for count, line in enumerate(lines_of(log), 1):
        said = reader.read(line)
        if count < lines[0] or lines[1] is not None and count > lines[1]:
            continue
        for number, frame, before, why, is_open in frames:
            if before == count:
                script += head + poll.ended() + arrival(frame, number, why, is_open, rctl)
                head = []
        if said == FAULT or said == ELSEWHERE and others:
            script += poll.ended()
            script.append(f"# line {count}: ".encode() + line[:MOST_SHOWN])
        if isinstance(said, str):
            continue
        if said[0] == "memory":
            script += head + poll.ended() + poked(*said[1:])
            rings.lie.append((said[1], said[1] + len(said[2])))
            head = []
            continue
        (way, offset, value, size), time = said, time_of(reader.form, line)
        script += head
        head, accesses = [], accesses + 1
        if poll.takes(count, said, time):
            continue
        script += poll.ended()
        poll.begin(said)
        text = said_of(way, offset, value)
        if size != 4:
            script.append(f"# line {count}: {text} ({size} octet{'s' * (size > 1)}){when(time)}")
        elif offset not in REGISTERS:
            script.append(f"# line {count}: {text} ({missing.get(offset, 'no register')}){when(time)}")
        else:
            script.append(text + ("" if time is None else f" # {seconds(time)}"))
            if way == "write":
                rings.write(REGISTERS[offset], value)
                rctl = value if REGISTERS[offset] == "RCTL" else rctl
    if accesses and (lines[1] is None or lines[1] >= places.lines):
        for number, frame, before, why, is_open in frames:
            if before is None:
                script += poll.ended() + arrival(frame, number, why, is_open, rctl)
    script = rings.head() + script + poll.ended()
    return b"".join((text if isinstance(text, bytes) else text.encode()) + b"\n" for text in script)
