"""The two data sets of checkpoints: written for the first time, read, and written again as the next one."""
import re

from .texts import Draws, of_bytes

# The databases of the sample: the length of a segment, and that of its key.
DATABASES = [(8, 4), (8, 4)]
# The segments that the sample loads: balances packed with their sign behind the digits, cash as 4 bytes.
ACCOUNTS = [b"A001" + bytes.fromhex("0000100c"), b"A002" + bytes.fromhex("0000050c")]
TELLERS = [b"T001" + bytes(4)]
STORED_NAME = re.compile(rb"(?=.{8}\Z)[A-Z][A-Z0-9]{0,7} *\Z", re.DOTALL)
LAST_PLACE = 2**62
CLOSED = b"\x00"


class Bad(Exception):
    """The bytes begin with no checkpoint."""


def number(value, size):
    return value.to_bytes(size, "big")


# ---- bytes from checkpoints

def database(segments, length=8, count=None):
    count = len(segments) if count is None else count
    return number(length, 2) + number(count, 4) + b"".join(segments)


def terminal(name, last, line):
    return name.ljust(8) + number(last, 8) + number(len(line), 2) + line


def head(form, order, place, entries):
    return b"IMSFPCK" + str(form).encode() + number(order, 8) + number(place, 8) + number(entries, 8)


def checkpoint(form, order, place, entries, databases, terminals=(), gate=1):
    """A data set with a checkpoint; each terminal is a name, a number and a line."""
    text = number(gate, 1) + head(form, order, place, entries) + number(len(databases), 1)
    text += b"".join(database(segments) for segments in databases)
    if form == 2:
        text += number(len(terminals), 8) + b"".join(terminal(*one) for one in terminals)
    return text


def over(old, new):
    """A data set that is written from its head on: what stood behind that stays."""
    return new + old[len(new):]


# ---- checkpoints from bytes

class Reader:
    def __init__(self, data):
        self.data = data
        self.at = 0

    def bytes(self, count):
        found = self.data[self.at:self.at + count]
        if len(found) < count:
            raise Bad
        self.at += count
        return found

    def number(self, size):
        return int.from_bytes(self.bytes(size), "big")


def ascend(keys):
    return all(one < other for one, other in zip(keys, keys[1:]))


def wanted(condition):
    if not condition:
        raise Bad


def read_head(data):
    """The format and the number behind a gate."""
    reader = Reader(data[1:])
    letters = reader.bytes(8)
    wanted(letters in [b"IMSFPCK1", b"IMSFPCK2"])
    return reader, int(letters[7:]), reader.number(8)


def read_database(reader, length, key):
    wanted(reader.number(2) == length)
    segments = [reader.bytes(length) for _ in range(reader.number(4))]
    wanted(ascend([segment[:key] for segment in segments]))
    return segments


def read_terminal(reader):
    name = reader.bytes(8)
    wanted(STORED_NAME.match(name))
    last = reader.number(8)
    return name.rstrip(b" "), last, reader.bytes(reader.number(2))


def read_checkpoint(data):
    """Format, number, place, entries, databases and terminals."""
    reader, form, order = read_head(data)
    place, entries = reader.number(8), reader.number(8)
    wanted(place <= LAST_PLACE and entries <= place)
    wanted(reader.number(1) == len(DATABASES))
    databases = [read_database(reader, *sizes) for sizes in DATABASES]
    terminals = []
    if form == 2:
        terminals = [read_terminal(reader) for _ in range(reader.number(8))]
        wanted(ascend([name.ljust(8) for name, _, _ in terminals]))
    return form, order, place, entries, databases, terminals


def newest(sets):
    """The data set of the newest open checkpoint, 0 where none is open; or the data set that is damaged."""
    orders = []
    for place, data in enumerate(sets, 1):
        if data[:1] == b"\x01":
            try:
                orders.append((read_head(data)[2], -place))
            except Bad:
                return 0, place
    return (-max(orders)[1] if orders else 0), 0


def loaded(sets):
    """What the newest one is, and its data set; or a text that says why there is none."""
    place, damaged = newest(sets)
    if not damaged and not place:
        return "none", 0
    try:
        if not damaged:
            return read_checkpoint(sets[place - 1]), place
    except Bad:
        damaged = place
    return f"damaged {damaged}", 0


# ---- the cases

def shown(found):
    form, order, place, entries, databases, terminals = found
    parts = [f"{form} {order} {place} {entries}"]
    parts += [f"{len(segments)} {of_bytes(b''.join(segments))}" for segments in databases]
    parts += [f"{name.decode()} {last} {of_bytes(line)}" for name, last, line in terminals]
    return " : ".join(parts)


def of_sets(sets):
    return " ".join(of_bytes(data) for data in sets)


def read_line(*sets):
    found, place = loaded(sets)
    return f"read {of_sets(sets)} => {shown(found) if place else found}"


def again_line(*sets):
    """The newest one is written again as the next one, in the other data set."""
    found, place = loaded(sets)
    if not place:
        return f"again {of_sets(sets)} => {found}"
    form, order, *rest = found
    written = list(sets)
    written[2 - place] = over(sets[2 - place], checkpoint(form, order + 1, *rest))
    return f"again {of_sets(sets)} => {of_sets(written)}"


def first_line(form, place, entries):
    """A checkpoint of the segments loaded, where there was none."""
    written = checkpoint(form, 1, place, entries, [ACCOUNTS, TELLERS])
    return f"first {form} {place} {entries} => {of_sets([written, CLOSED])}"


# After a deposit of 10 to the first account.
PAID = [[b"A001" + bytes.fromhex("0000110c"), ACCOUNTS[1]], TELLERS]
KEPT = [(b"T1", 5, b"T1 OK NEW"), (b"T2", 2**64 - 1, b""), (b"TELLER99", 0, b"x" * 300)]


def wholes():
    """Checkpoints that keep the rules."""
    for form in [1, 2]:
        yield checkpoint(form, 1, 84, 1, PAID)
        yield checkpoint(form, 2**64 - 2, LAST_PLACE, LAST_PLACE, PAID)
        yield checkpoint(form, 0, 0, 0, [[], []])
        yield checkpoint(form, 7, 300, 299, [[bytes([code]) * 8 for code in range(256)], []])
    yield checkpoint(2, 1, 84, 1, PAID, KEPT)
    yield checkpoint(2, 3, 84, 1, PAID, [(b"A", 1, b"A"), (b"A1", 1, b"A"), (b"AA", 1, b"A")])


def broken(form):
    """Checkpoints that break a rule, each another one."""
    whole = checkpoint(form, 2, 84, 1, PAID, KEPT)
    for place in range(1, 9):
        yield whole[:place] + bytes([whole[place] ^ 3]) + whole[place + 1:]
    yield from (whole[:end] for end in list(range(1, 40)) + list(range(40, len(whole), 7)) + [len(whole) - 1])
    yield checkpoint(form, 2, LAST_PLACE + 1, 1, PAID)
    yield checkpoint(form, 2, 84, 85, PAID)
    yield from (checkpoint(form, 2, 84, 1, some) for some in [[], PAID[:1], PAID + [[]], PAID[::-1]])
    front = number(1, 1) + head(form, 2, 84, 1) + b"\x02"
    rest = database(TELLERS) + bytes(8)
    for first in [
        database(PAID[0], length=7), database(PAID[0], length=9), database(PAID[0], length=0),
        database(PAID[0], count=1), database(PAID[0], count=3), database(PAID[0], count=2**32 - 1),
        database(PAID[0][::-1]), database([PAID[0][0], ACCOUNTS[0]]), database([]),
    ]:
        yield front + first + rest


def broken_terminals():
    whole = checkpoint(2, 2, 84, 1, PAID)[:-8]
    for name in [b"", b" T1", b"T 1", b"t1", b"1T", b"T1\x00", b"T1-", b"TELLER99"]:
        yield whole + number(1, 8) + terminal(name, 5, b"T1 OK")
    for names in [b"T1 T1", b"T2 T1", b"T1 T2 T10", b"T10 T2", b"T1 T10 T2"]:
        several = b"".join(terminal(name, 5, b"") for name in names.split())
        yield whole + number(len(names.split()), 8) + several
    for count in [0, 2, 2**32, 2**64 - 1]:
        yield whole + number(count, 8) + terminal(b"T1", 5, b"T1 OK")


def pairs():
    """Two data sets, one or both of them open."""
    one, two, old = (checkpoint(form, order, 84, 1, PAID) for form, order in [(1, 4), (2, 5), (1, 3)])
    same = checkpoint(2, 4, 85, 1, [ACCOUNTS, TELLERS])
    for sets in [(one, two), (two, one), (one, old), (old, one), (one, same), (same, one)]:
        yield sets
    # Of the older one the letters and the number count, and nothing behind them.
    for cut in [16, 17, 18, 40]:
        yield old[:cut], two
        yield two, old[:cut]
    yield old[:17] + b"\xff" * 50, one
    yield old[:7] + b"3" + old[8:], one
    yield old[:8] + b"3" + old[9:], one
    yield one, b"\x01"
    # The newest one is damaged, and the older one isn't taken in its place.
    yield one, two[:60]
    yield two[:60], one
    for gate in [0, 2, 255]:
        yield number(gate, 1) + one[1:], two
        yield one, number(gate, 1) + two[1:]
        yield number(gate, 1) + one[1:], number(gate, 1) + two[1:]
    yield from [(b"", b""), (CLOSED, CLOSED), (b"", two), (one, b""), (CLOSED * 900, one), (one, CLOSED * 900)]


def cases():
    for form in [1, 2]:
        for place, entries in [(84, 1), (0, 0), (LAST_PLACE, LAST_PLACE), (2**40, 255)]:
            yield first_line(form, place, entries)
    for whole in wholes():
        for sets in [(whole, CLOSED), (CLOSED, whole), (whole + b"behind it", CLOSED)]:
            yield read_line(*sets)
            yield again_line(*sets)
    for data in list(broken(1)) + list(broken(2)) + list(broken_terminals()):
        yield read_line(data, CLOSED)
        yield read_line(CLOSED, data)
    for sets in pairs():
        yield read_line(*sets)
        yield again_line(*sets)
    draws = Draws(87)
    whole = checkpoint(2, 2, 84, 1, PAID, KEPT)
    for _ in range(60):
        place = draws.below(len(whole))
        yield read_line(whole[:place] + number(draws.below(256), 1) + whole[place + 1:], CLOSED)


def lines():
    yield "Checkpoints: a first one's format, place and count, or two data sets, and what they hold or come to."
    yield from dict.fromkeys(cases())
