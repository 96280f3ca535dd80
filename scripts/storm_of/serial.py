"""A serial replay: the entries of a log one after another, each transaction alone, on the states that it noted."""
from vectors_of import messages
from vectors_of.entries import KINDS, SIZES, Reader

from . import databases
from .numbered import read
from .scripts import Script


class Illegal(Exception):
    """The log isn't a serial history."""


class Entry:
    """An entry of a log, read from its bytes."""

    def __init__(self, data):
        reader = Reader(data)
        self.start, self.kind = reader.number(8), KINDS[reader.number(1)]
        self.detail = detail(self.kind, reader)
        self.line, self.reply = reader.part(2), reader.part(2)
        self.notes = [reader.number(8) for _ in range(reader.number(4))]
        self.items = [item(reader) for _ in range(reader.number(4))]
        if reader.at != len(data):
            raise Illegal("an entry with more bytes")


def detail(kind, reader):
    """What the outcome of a kind has, as a list."""
    if kind == "verify":
        return [reader.number(4), reader.number(2), reader.part(2)]
    if kind in ["deadlock", "repeat"]:
        return [reader.part(1 if kind == "deadlock" else 2)]
    return [reader.number(size) for size in SIZES.get(kind, [])]


def item(reader):
    if reader.number(1) != 1:
        raise Illegal("an item of an area")
    return "segment", reader.number(1), reader.part(1), reader.part(2)


def groups(log, first):
    """The groups of a log whose first gate is at a place: of each its entries."""
    reader, found = Reader(log), []
    reader.at = first
    while reader.at < len(log) and reader.number(1) == 1:
        body, entries = Reader(reader.part(8)), []
        while body.at < len(body.data):
            entries.append(Entry(body.part(8)))
        found.append(entries)
    return found


def has_looked(work, call):
    """Whether a call that is answered looks at a database without a hold."""
    word, number = call[:2]
    if word == "FLD":
        return not work.has_moved(number, call[2])
    return word in ["GU", "GN"]


class Replay:
    """The states of a serial history, entry by entry."""

    def __init__(self, bases, scripts):
        self.bases, self.scripts = bases, scripts
        self.states = [[base.start() for base in bases]]
        # Of each terminal its last number and its reply line.
        self.lasts = {}

    def take(self, entry):
        """One entry more. Fails where it isn't legal."""
        place, now = len(self.states) - 1, self.states[-1]
        found = read(entry.line)
        self.check_number(entry, found)
        if entry.kind in ["unknown", "old", "repeat"]:
            wants(entry.start == place, "a refused line with another start")
            wants(entry.kind != "unknown" or found is None or found[2] not in self.scripts, "a script that is unknown")
            wants(not entry.notes, "a refused line with notes")
        elif entry.kind in ["done", "verify", "roll"]:
            now = self.alone(entry, found, place)
        else:
            wants(entry.kind == "deadlock" and entry.start <= place and not entry.notes, f"an entry {entry.kind}")
        wants(entry.kind == "done" or not (entry.items or entry.reply), "items of a refused transaction")
        self.states.append(now)
        if found and found[1] is not None and entry.kind not in ["old", "repeat"]:
            self.lasts[found[0]] = (found[1], told(entry))

    def check_number(self, entry, found):
        """A number is used in order, and answered as it was."""
        number, (last, line) = found and found[1], self.lasts.get(found and found[0], (0, b""))
        if entry.kind == "old":
            wants(number is not None and number < last and entry.detail == [last], "old for another reason")
        elif entry.kind == "repeat":
            wants(number == last and entry.detail == [line], "a repeat of another line")
        else:
            wants(number is None or number > last, "a number that was used")

    def alone(self, entry, found, place):
        """The state behind a transaction that ran to the end of its script: alone, on the states of its notes."""
        wants(found is not None and found[2] in self.scripts, "a transaction without a script")
        places = [entry.start, *entry.notes, place]
        wants(places == sorted(places), "a start and notes that aren't in order")
        notes, work = list(entry.notes), databases.Work()
        script, answer = Script(self.scripts[found[2]], found[3], self.bases).run(), None
        while True:
            try:
                call = script.send(answer)
            except StopIteration as end:
                wants(not notes, "more notes than looks")
                return self.ended(entry, end.value, work)
            state = self.states[place]
            if has_looked(work, call):
                wants(notes, "fewer notes than looks")
                state = self.states[notes.pop(0)]
            answer = databases.answer(self.bases, state, work, call)

    def ended(self, entry, end, work):
        """The state behind a script that ended so."""
        now = self.states[-1]
        if end[0] == "roll":
            wants(entry.kind == "roll" and entry.detail == [end[1]], f"a script that ends with {end}")
            return now
        state, failure = databases.settled(self.bases, now, work)
        if failure is not None:
            wants(entry.kind == "verify" and entry.detail == [*failure], f"a verify that fails with {failure}")
            return now
        wants(entry.kind == "done" and entry.reply == end[1], f"a script that replies {end[1]}")
        wants(entry.items == databases.items(work, state), "other items")
        return state

    def show(self, count):
        """The text of the databases behind so many entries."""
        return "".join(f"{line}\n" for base, segments in zip(self.bases, self.states[count])
                       for line in base.show(segments))


def wants(holds, otherwise):
    if not holds:
        raise Illegal(otherwise)


def told(entry):
    """The reply line of an entry, without its newline."""
    spelled = f"{entry.kind} {entry.detail[0]}" if entry.kind in ["roll", "old"] else entry.kind
    return messages.reply(spelled, entry.line, entry.reply, entry.detail[0] if entry.kind == "repeat" else b"")[:-1]


def replay(log, first, bases, scripts):
    """The states of a log, and the entries of its groups. Fails where the log isn't a serial history."""
    found, history = groups(log, first), Replay(bases, scripts)
    for number, entries in enumerate(found):
        for entry in entries:
            try:
                history.take(entry)
            except Illegal as why:
                raise Illegal(f"group {number}, entry {len(history.states) - 1}, {entry.line!r}: {why}") from why
    return history, found
