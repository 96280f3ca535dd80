"""Entries of the log as bytes, and logs with their groups."""
from .texts import Draws, of_bytes

KINDS = ["done", "verify", "roll", "seqfull", "deadlock", "device", "memory", "unknown", "purge"]
KINDS += ["old", "repeat", "format"]
# The sizes of the numbers in a detail that has nothing else.
SIZES = {"roll": [2], "seqfull": [2, 8, 8, 8], "purge": [2, 8], "old": [8]}


class Bad(Exception):
    """The bytes are no entry."""


# ---- bytes from entries; an entry is a dictionary, and so is an item

def number(value, size):
    return value.to_bytes(size, "big")


def part(data, size):
    return number(len(data), size) + data


def detail(outcome):
    word, *values = outcome
    if word == "verify":
        return number(values[0], 4) + number(values[1], 2) + part(values[2], 2)
    if word == "deadlock":
        return part(values[0], 1)
    if word == "repeat":
        return part(values[0], 2)
    return b"".join(number(value, size) for value, size in zip(values, SIZES.get(word, [])))


def item_bytes(item):
    word, *values, data = item
    if word == "segment":
        return b"\x01" + number(values[0], 1) + part(values[1], 1) + part(data, 2)
    code = b"\x02" if word == "image" else b"\x03"
    return code + b"".join(number(value, size) for value, size in zip(values, [2, 8, 2])) + part(data, 2)


def entry(outcome, start=7, line=b"T1 X", reply=b"", notes=(3,), items=()):
    """The bytes of an entry, whether it keeps the rules or not."""
    rest = number(start, 8) + number(KINDS.index(outcome[0]), 1) + detail(outcome) + part(line, 2) + part(reply, 2)
    rest += number(len(notes), 4) + b"".join(number(note, 8) for note in notes)
    rest += number(len(items), 4) + b"".join(item_bytes(item) for item in items)
    return number(len(rest), 8) + rest


# ---- entries from bytes

class Reader:
    def __init__(self, data):
        self.data = data
        self.at = 0

    def bytes(self, count):
        found = self.data[self.at:self.at + count]
        if len(found) < count:
            raise Bad
        self.at += count
        return found

    def number(self, size):
        return int.from_bytes(self.bytes(size), "big")

    def part(self, size):
        return self.bytes(self.number(size))


def read_detail(code, reader):
    """An outcome as it is shown."""
    if code >= len(KINDS):
        raise Bad
    word = KINDS[code]
    if word == "verify":
        return f"{word} {reader.number(4)} {reader.number(2)} {of_bytes(reader.part(2))}"
    if word == "deadlock":
        return f"{word} {of_bytes(reader.part(1))}"
    if word == "repeat":
        return f"{word} {of_bytes(reader.part(2))}"
    return " ".join([word] + [str(reader.number(size)) for size in SIZES.get(word, [])])


def read_item(reader):
    """An item as it is ordered, and as it is shown."""
    kind = reader.number(1)
    if kind == 1:
        msdb, key, data = reader.number(1), reader.part(1), reader.part(2)
        return (1, msdb, key), f"segment {msdb} {of_bytes(key)} {of_bytes(data)}"
    if kind == 2:
        data_set, interval, data = reader.number(2), reader.number(8), reader.part(2)
        return (2, data_set, interval), f"image {data_set} {interval} {of_bytes(data)}"
    if kind == 3:
        data_set, interval, place, data = reader.number(2), reader.number(8), reader.number(2), reader.part(2)
        if not data:
            raise Bad
        # An interval stands once, be it whole or in part.
        return (2, data_set, interval), f"range {data_set} {interval} {place} {of_bytes(data)}"
    raise Bad


def read_entry(data):
    """An entry of all these bytes: where it began, and as it is shown."""
    reader = Reader(data)
    start, code = reader.number(8), reader.number(1)
    outcome, line, reply = read_detail(code, reader), reader.part(2), reader.part(2)
    notes = [reader.number(8) for _ in range(reader.number(4))]
    items = [read_item(reader) for _ in range(reader.number(4))]
    orders = [order for order, _ in items]
    if reader.at != len(data) or any(one >= other for one, other in zip(orders, orders[1:])):
        raise Bad
    if reply and KINDS[code] != "done" or items and KINDS[code] not in ["done", "purge"]:
        raise Bad
    shown = [str(start), outcome, of_bytes(line), of_bytes(reply), ",".join(map(str, notes)) or "-"]
    return start, " ".join(shown + [text for _, text in items])


def read(data):
    """The entries that bytes are, as pairs, and the place of the first bytes that are none."""
    found, at = [], 0
    while at < len(data):
        reader = Reader(data[at:])
        try:
            rest = reader.part(8)
            found.append(read_entry(rest))
        except Bad:
            return found, at
        at += 8 + len(rest)
    return found, None


# ---- the cases

DEPOSIT = bytes.fromhex(
    "000000000000004300000000000000000000125431204445504f534954204130303120313000034e4557"
    "0000000100000000000000000000000101000441303031000841303031" "0000110c"
)
REFUSED = bytes.fromhex(
    "0000000000000031000000000000000002000100125431204445504f534954204130303920313000"
    "0000000001000000000000000000000000"
)
# A range of two bytes in place of a whole interval.
RENAMED = bytes.fromhex(
    "000000000000003d00000000000000020000125432" "2052454e414d45204330303120424f42" "00054e414d454400000000"
    "00000001" "0300040000000000000004004500024f42"
)
OUTCOMES = [
    ("done",), ("verify", 2, 65_535, b"\xab\xcd"), ("verify", 0, 0, b""), ("verify", 2**32 - 1, 1, b"x" * 300),
    ("roll", 0), ("roll", 99), ("roll", 65_535), ("seqfull", 3, 1, 4, 2), ("seqfull", 65_535, 2**64 - 1, 2**62, 0),
    ("deadlock", b"\x02\x01"), ("deadlock", b""), ("deadlock", bytes(range(64))), ("deadlock", b"\x01" * 255),
    ("device",), ("memory",), ("unknown",), ("purge", 3, 2), ("purge", 0, 2**64 - 1), ("old", 3), ("old", 0),
    ("old", 10**18 - 1), ("old", 2**64 - 1), ("repeat", b"T1 OK NEW"), ("repeat", b""), ("repeat", b"\n"),
    ("repeat", b"r" * 255), ("repeat", b"r" * 256), ("format",),
]


def segment(msdb, key, data=b""):
    return ("segment", msdb, key, data)


def image(data_set, interval, data=b""):
    return ("image", data_set, interval, data)


def piece(data_set, interval, place, data=b"r"):
    return ("range", data_set, interval, place, data)


ITEMS = [
    [], [segment(0, b"A1", b"A1z")], [segment(0, b"A1"), segment(0, b"A2")], [segment(0, b"A2"), segment(0, b"A1")],
    [segment(0, b"A1"), segment(0, b"A1")], [segment(1, b"A1"), segment(0, b"A2")],
    [segment(0, b"A2"), segment(1, b"A1")], [segment(0, b"A"), segment(0, b"A1")],
    [segment(0, b"A1"), segment(0, b"A")], [segment(0, b""), segment(0, b"\x00")],
    [segment(0, b"\x7f"), segment(0, b"\x80")], [segment(0, b"\x80"), segment(0, b"\x7f")],
    [segment(255, b"k" * 255, b"s" * 1000)], [image(3, 0, b"c")], [image(3, 0), image(3, 1)],
    [image(3, 1), image(3, 0)], [image(3, 1), image(3, 1)], [image(4, 0), image(3, 1)], [image(3, 9), image(4, 0)],
    [image(3, 255), image(3, 256)], [image(3, 256), image(3, 255)],
    [image(0, 0), image(65_535, 2**64 - 1, b"\x00" * 4096)], [segment(0, b"A1"), image(3, 0)],
    [image(3, 0), segment(0, b"A1")], [segment(9, b"A1"), image(0, 0), image(0, 1)],
    [segment(0, b"A1", b"A1z"), segment(0, b"A2"), segment(1, b"A1", b"A1"), image(3, 2, b"~"), image(3, 5, b"ab"),
    image(4, 0)], [segment(0, b"A1"), image(3, 0), segment(1, b"A1")],
    [segment(0, b"A"), segment(0, b"B"), segment(0, b"B")], [piece(4, 4, 69, b"OB")], [piece(0, 0, 0)],
    [piece(65_535, 2**64 - 1, 65_535, b"x" * 65_535)], [piece(3, 0, 0, b"")], [piece(3, 0, 32, b"\x00")],
    [piece(3, 0, 1), piece(3, 1, 0)], [piece(3, 1, 0), piece(3, 0, 1)], [piece(3, 1, 0), piece(3, 1, 0)],
    [piece(3, 1, 0), piece(3, 1, 9)], [piece(3, 1, 9), piece(3, 1, 0)], [piece(3, 9, 0), piece(4, 0, 0)],
    [piece(4, 0, 0), piece(3, 9, 0)], [piece(3, 255, 0), piece(3, 256, 0)], [piece(3, 256, 0), piece(3, 255, 0)],
    [piece(3, 0, 5), image(3, 1)], [image(3, 0), piece(3, 1, 5)], [image(3, 1), piece(3, 0, 5)],
    [piece(3, 1, 5), image(3, 0)], [image(3, 1), piece(3, 1, 5)], [piece(3, 1, 5), image(3, 1)],
    [piece(3, 1, 5), image(4, 0)], [image(4, 0), piece(3, 1, 5)], [segment(0, b"A1"), piece(3, 0, 0)],
    [piece(3, 0, 0), segment(0, b"A1")], [segment(255, b"z"), piece(0, 0, 0), image(0, 1), piece(0, 2, 0)],
    [piece(3, 0, 0), segment(9, b"A"), piece(3, 1, 0)], [image(3, 0), piece(3, 1, 0, b""), image(3, 2)],
    [piece(3, 0, 0), image(3, 1), piece(3, 1, 1)],
    [image(3, 0, b"i"), piece(3, 1, 32, b"ab"), image(3, 2, b"i"), piece(4, 0, 1, b"c"), image(5, 0)],
]


def bodies():
    yield b""
    yield from [DEPOSIT, REFUSED, DEPOSIT + REFUSED, REFUSED + DEPOSIT + REFUSED, RENAMED, DEPOSIT + RENAMED]
    for outcome in OUTCOMES:
        yield entry(outcome)
        yield entry(outcome, line=b"", reply=b"R")
        yield entry(outcome, items=[segment(0, b"A1")])
        yield entry(outcome, items=[image(3, 0, b"i")])
        yield entry(outcome, notes=[], items=[piece(3, 0, 32)])
    for items in ITEMS:
        for outcome in [("done",), ("purge", 3, 1)]:
            yield entry(outcome, items=items)
    for outcome in [("unknown",), ("old", 3), ("repeat", b"T1 OK"), ("format",)]:
        yield entry(outcome, line=b"")
        yield entry(outcome, line=b"", notes=[])
        yield entry(outcome, line=b"T1 5 X", notes=[1, 2])
        yield entry(outcome) + entry(("old", 5)) + entry(outcome, 2**64 - 1)
    yield entry(("repeat", b"r" * 65_535))
    for start in [0, 1, 255, 256, 2**32, 2**64 - 1]:
        yield entry(("unknown",), start)
    for count in [0, 1, 255, 256, 1000, 65_535]:
        yield entry(("done",), line=b"L" * count)
        yield entry(("done",), reply=b"R" * count)
    for notes in [[], [0], [1, 2], [2, 1], [5, 5], [2**64 - 1], list(range(10)), [7] * 60]:
        yield entry(("done",), notes=notes)
    yield from broken()


def broken():
    """Entries with a byte or a length changed, left out or added."""
    whole = entry(("done",), 1, b"T", b"R", [3], [segment(0, b"A", b"Az"), image(3, 2, b"~"), piece(3, 5, 9, b"a")])
    repeated = entry(("repeat", b"T OK"), 2, b"T 5 X", notes=[])
    details = [OUTCOMES[1], ("roll", 9), ("seqfull", 3, 1, 4, 2), ("deadlock", b"\x02\x01"), ("purge", 3, 2)]
    shorts = [entry(outcome, 2, b"", notes=[]) for outcome in details]
    shorts += [repeated, entry(("old", 5), 2, b"T"), entry(("format",), 9, b"", notes=[])]
    for data in [whole] + shorts:
        for end in range(len(data)):
            yield data[:end]
        yield data + b"\x00"
    good = entry(("unknown",), 0, b"", b"", [])
    yield from misspelled(whole)
    yield from misspelled(repeated)
    for data in [DEPOSIT[:-1] + b"\x0d", whole[:9] + b"\x01" + whole[10:], repeated[:16] + b"\x0c" + repeated[17:]]:
        yield good + data + good
    for code in list(range(16)) + [127, 128, 254, 255]:
        yield number(8 + 1, 8) + number(7, 8) + number(code, 1)
        for plain in [entry(("device",)), repeated]:
            yield plain[:16] + number(code, 1) + plain[17:]
    for code in [0, 1, 2, 3, 4, 255]:
        rest = entry(("done",), items=[])[8:-1] + b"\x01" + number(code, 1)
        for data in [bytes(13), bytes(14) + b"\x01r", bytes(12) + b"\x01r", b"\x00\x01A\x00\x00"]:
            yield part(rest + data, 8)
    for length in [2**63, 2**64 - 1, 2**32]:
        yield number(length, 8) + DEPOSIT[8:]
        yield DEPOSIT + number(length, 8)
    # More notes or items by their count than there are.
    head = number(0, 8) + number(0, 1) + part(b"T", 2) + part(b"R", 2)
    for count in [2, 255, 2**16, 2**31, 2**32 - 1]:
        yield part(head + number(count, 4) + number(3, 8), 8)
        yield part(head + number(0, 4) + number(count, 4) + item_bytes(segment(0, b"A", b"Az")), 8)


def misspelled(data):
    """An entry with each of its bytes changed or left out, and with a zero before each other one."""
    for place in range(len(data)):
        for change in [1, -1]:
            yield data[:place] + bytes([(data[place] + change) % 256]) + data[place + 1:]
        # The length stays true to what is left, or to what was added.
        if place >= 8:
            yield part(data[8:place] + data[place + 1:], 8)
            if place % 2:
                yield part(data[8:place] + b"\x00" + data[place:], 8)


def entry_line(data):
    found, place = read(data)
    shown = " / ".join(text for _, text in found) if place is None else f"bad {place}"
    # A text that ends in a blank, or is none, is written as it is.
    return f"{of_bytes(data)} => {shown}"


def lines():
    yield "Entries of the log: their bytes, and their fields."
    yield from dict.fromkeys(entry_line(data) for data in bodies())


# ---- logs

def front(defs, scripts, gate=1):
    return number(gate, 1) + b"IMSFPLG1" + part(defs, 4) + part(scripts, 4)


def group(*entries, gate=1):
    body = b"".join(entries)
    return number(gate, 1) + part(body, 8)


def read_log(defs, scripts, data):
    """The groups of a log with this front, and its gate or where it is damaged."""
    wanted = front(defs, scripts)
    if data[:len(wanted)] != wanted:
        return "foreign"
    at, shown = len(wanted), ""
    while data[at:at + 1] == b"\x01":
        length = int.from_bytes(data[at + 1:at + 9], "big")
        body = data[at + 9:at + 9 + length]
        found, place = read(body)
        if len(data) < at + 9 or not body or len(body) < length or place is not None:
            return f"{shown}damaged {at}"
        at += 9 + length
        shown += ",".join(str(start) for start, _ in found) + f"@{at} "
    return f"{shown}gate {at}"


def log_line(defs, scripts, data):
    return f"{of_bytes(defs)} {of_bytes(scripts)} {of_bytes(data)} => {read_log(defs, scripts, data)}"


def logs():
    one, two, three = (entry(("unknown",), start, b"", b"", []) for start in range(3))
    for data in [b"", front(b"d" * 300, b"s" * 70_000), front(b"d" * 300, b"s" * 70_000)[:-1]]:
        yield b"d" * 300, b"s" * 70_000, data
    for defs, scripts in [(b"D", b""), (b"", b""), (b"", b"S"), (b"defs", b"scripts"), (b"\x00" * 300, b"x" * 256)]:
        head = front(defs, scripts)
        for data in [b"", head, head + b"\x00", head + group(one) + b"\x00", front(defs, scripts, 0), head[:-1]]:
            yield defs, scripts, data
        yield defs, scripts, front(scripts, defs)
        for place in range(min(len(head), 18)):
            yield defs, scripts, head[:place] + bytes([head[place] ^ 1]) + head[place + 1:]
            if place % 4 == 0:
                yield defs, scripts, head[:place]
    head = front(b"D", b"")
    for tail in tails(one, two, three):
        yield b"D", b"", head + tail


def tails(one, two, three):
    groups = group(one) + group(two, three)
    for gate in list(range(6)) + [42, 49, 127, 128, 129, 254, 255]:
        yield number(gate, 1)
        yield group(one) + number(gate, 1)
        yield group(one) + group(two, gate=gate) + b"\x00"
    yield from (groups[:end] for end in range(len(groups) + 1))
    yield from [groups + b"\x00", groups + b"\x02" + b"\x01" * 30, groups + b"\x00" + group(one)]
    yield group(one, gate=0) + group(two)
    # A length of 0, one that passes the end, one that is less or more than the entries.
    for length in [0, 1, 28, 29, 30, 58, 2**32, 2**62, 2**63, 2**64 - 1]:
        yield b"\x01" + number(length, 8) + one + b"\x00"
        yield group(one) + b"\x01" + number(length, 8) + two + three
    numbered = [entry(("format",), 1, b"", notes=[]), entry(("old", 5), 2), entry(("repeat", b"T1 OK"), 3), RENAMED]
    yield group(one) + group(*numbered[:2]) + group(*numbered[2:]) + b"\x00"
    wholes = [b"\x00" * 8, DEPOSIT, REFUSED, DEPOSIT + REFUSED]
    for data in wholes + [b"", DEPOSIT[:-1], DEPOSIT + b"\x00", REFUSED + DEPOSIT[:40]]:
        yield group(data)
        yield group(data) + b"\x00"
        yield group(one) + group(data) + group(two) + b"\x00"
    draws = Draws(51)
    for _ in range(30):
        place = draws.below(len(groups))
        yield groups[:place] + number(draws.below(256), 1) + groups[place + 1:] + b"\x00"


def log_lines():
    yield "Logs: the texts of a front, the bytes of the log, and its groups."
    yield from dict.fromkeys(log_line(*row) for row in logs())
