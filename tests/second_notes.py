"""What an event was, as a record has it, by a second reading: the fields of its kind in their order, and its text. Names and
bits of registers are those of docs/library.md."""
from page_names import of_docs, stem
from second_reading import IN_WORDS, NAMES_BESIDES

# The fields of each kind of event, in their order.
FIELDS = {
    "read": ["kind", "offset", "register", "value"], "write": ["kind", "offset", "register", "value"],
    "poke": ["kind", "address", "length"], "arrive": ["kind", "length", "answer", "reason"], "link": ["kind", "up"],
    "rx": ["kind", "answer", "descriptor", "at", "buffer", "octets"],
    "tx": ["kind", "answer", "descriptor", "at", "buffer", "octets", "length"],
}
BITS = of_docs()
# of either profile
NAMES = IN_WORDS | NAMES_BESIDES
SPEEDS = (10, 100, 1000, 1000)
BUFFERS = ((2048, 1024, 512, 256), (2048, 16384, 8192, 4096))


def field(name: str, high: int, low: int, value: int, register: str) -> str:
    """A bit or a field of a register that holds a value, as the table in docs/library.md has it shown."""
    number = value >> low & (1 << high - low + 1) - 1
    if name == "BSIZE":
        return f" BSIZE={BUFFERS[value >> 25 & 1][number]}"
    if not number:
        return ""
    if high == low:
        return f" {name}"
    if name in ("SPEED", "ASDV"):
        return f" {name}={SPEEDS[number]}"
    is_in_digits = name in ("ADDR", "DATA", "TxConfigWord") or (register, name) == ("RAH", "RAH")
    return f" {name}={number:04X}" if is_in_digits else f" {name}={number}"


def valued(offset: int, value: int) -> str:
    """A register with its value, its bits and its fields."""
    name = NAMES[offset]
    rows = BITS.get(stem(name), [])
    named = sum((1 << high + 1) - (1 << low) for _, high, low in rows)
    rest = value & ~named if rows else 0
    return (f"{name} {value:08X}" + "".join(field(*row, value, stem(name)) for row in rows)
            + (f" {rest:08X}" if rest else ""))


def spoken(was: dict) -> str:
    """An event in words."""
    kind = was["kind"]
    if kind in ("read", "write"):
        return f"{kind} {valued(was['offset'], was['value'])}"
    if kind == "poke":
        return f"poke {was['address']:06X} length {was['length']}"
    if kind == "link":
        return "link up" if was["up"] else "link down"
    words = [str(was[name]) for name in ("answer", "reason") if name in was]
    if kind == "arrive":
        return f"arrive length {was['length']}: {' '.join(words)}"
    words += [str(was[name]) for name in ("descriptor", "length") if name in was]
    return f"{kind}: {' '.join(words)}"


def noted(was: dict) -> dict:
    """What a record says of an event that was this."""
    names = {"register": NAMES[was["offset"]]} if "offset" in was else {}
    all_of_it = was | names
    return {name: all_of_it[name] for name in FIELDS[was["kind"]] if name in all_of_it} | {"text": spoken(was)}
