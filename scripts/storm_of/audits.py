"""An audit tried on a seed's log, and on logs in which one field of one entry is another: what the built program's
`audit` answers of each, beside the verdict of a replay that judges by messages, replies, notes and outcomes alone."""
import subprocess
from pathlib import Path

from vectors_of import entries

from . import seeds, serial
from .numbered import read
from .scripts import read as read_scripts

LEGAL, ILLEGAL = 0, 13
# Outcomes that an entry may be given in place of its own.
OUTCOMES = [["done"], ["verify", 0, 0, b""], ["verify", 0, 65535, b""], ["roll", 1], ["roll", 7],
            ["seqfull", 3, 0, 0, 1], ["deadlock", b"\x01"], ["device"], ["memory"], ["unknown"], ["purge", 3, 1],
            ["old", 1], ["repeat", b"T1 OK"], ["format"]]
# Lines that an entry may be given in place of its own.
LINES = [b"T30 9 NOSUCH", b"T30 PAY K1 K2 5", b"T30 1 PAY K2 K1 3"]
# What only some outcomes may have: bytes that break this are no entry, which is damage and no verdict.
HAVE_REPLY, HAVE_ITEMS = ["done"], ["done", "purge"]
RUN, REFUSED = ["done", "verify", "roll"], ["deadlock", "device", "memory"]


class Verdict(serial.Replay):
    """A replay that takes just the entries that are legal, and looks at no item."""

    def take(self, entry):
        place, now, found = len(self.states) - 1, self.states[-1], read(entry.line)
        asked = self.request(found)
        if entry.kind in RUN:
            serial.wants(asked == "message" and (entry.kind == "done" or not entry.reply), "no transaction")
            now = self.alone(entry, found, place)
        elif entry.kind in REFUSED:
            serial.wants(asked == "message" and entry.start <= place and not entry.notes, "no message to refuse")
        else:
            serial.wants(asked == [entry.kind, *entry.detail], "a line that asks for something else")
            serial.wants(entry.start == place and not entry.notes, "a refused line with a start or notes")
        self.states.append(now)
        if found and found[1] is not None and entry.kind not in ["old", "repeat"]:
            self.lasts[found[0]] = (found[1], serial.told(entry))

    def request(self, found):
        """What a line asks for: a message is to be run, or the outcome by which the line is refused."""
        if found is None:
            return ["unknown"]
        last, line = self.lasts.get(found[0], (0, b""))
        if found[1] is not None and found[1] <= last:
            return ["old", last] if found[1] < last else ["repeat", line]
        return "message" if found[2] in self.scripts else ["unknown"]

    def ended(self, entry, end, work):
        entry.items = Anything()
        return super().ended(entry, end, work)


class Anything:
    """Items that are as wanted, whatever is wanted."""

    def __eq__(self, other):
        return True


def others(value):
    """Other values of a part of an outcome's detail."""
    if isinstance(value, int):
        return [(value + 1) % 65536, max(value - 1, 0)]
    return [value + b"\x00", value[:-1], b"T9 OK"]


def field_changes(entry, place):
    """Entries that differ from this one in a field, as what each is spelled from."""
    whole = {"outcome": [entry.kind, *entry.detail], "start": entry.start, "line": entry.line, "reply": entry.reply,
             "notes": entry.notes, "items": [(word, msdb, key, data) for word, msdb, key, data in entry.items]}
    for start in {0, entry.start - 1, entry.start + 1, place, place + 1} - {-1, entry.start}:
        yield {**whole, "start": start}
    for outcome in OUTCOMES:
        yield {**whole, "outcome": outcome}
        yield {**whole, "outcome": outcome, "reply": b"", "items": []}
        yield {**whole, "outcome": outcome, "reply": b"", "items": [], "notes": [], "start": place}
    for at, value in enumerate(entry.detail):
        for other in others(value):
            yield {**whole, "outcome": [entry.kind, *entry.detail[:at], other, *entry.detail[at + 1:]]}
    for line in [b"", entry.line + b"1", entry.line[:-1] + b"7", *LINES]:
        yield {**whole, "line": line}
    for reply in [b"", entry.reply + b"X", entry.reply[1:], b"NO"]:
        yield {**whole, "reply": reply}
    for at, note in enumerate(entry.notes):
        for other in {0, note - 1, note + 1, place, place + 1} - {-1, note}:
            yield {**whole, "notes": [*entry.notes[:at], other, *entry.notes[at + 1:]]}
        yield {**whole, "notes": [*entry.notes[:at], *entry.notes[at + 1:]]}
    for note in [entry.start, place]:
        yield {**whole, "notes": [*entry.notes, note]}
    yield {**whole, "items": []}


def is_entry(fields):
    """Whether the fields keep the rules without which bytes are no entry."""
    kind = fields["outcome"][0]
    return (kind in HAVE_REPLY or not fields["reply"]) and (kind in HAVE_ITEMS or not fields["items"])


def spelled(fields):
    return entries.entry(fields["outcome"], fields["start"], fields["line"], fields["reply"], fields["notes"],
                         fields["items"])


class Audit:
    """The built program over logs of one seed."""

    def __init__(self, program: str, path: str, seed: seeds.Seed):
        self.program, self.path, self.seed = program, Path(path), seed
        (self.path / "defs.toml").write_text(seed.definitions, encoding="latin-1")
        (self.path / "scripts.txt").write_text(seed.scripts, encoding="latin-1")
        self.groups = serial.groups(seed.runs[-1].log, len(seed.front))
        self.bodies = [[plain(entry) for entry in group] for group in self.groups]

    def log(self, bodies) -> bytes:
        text = b"".join(b"\x01" + len(joined).to_bytes(8, "big") + joined for joined in map(b"".join, bodies))
        return self.seed.front + text + b"\x00"

    def answer(self, log: bytes) -> tuple[int, str]:
        """The status of the program, and what it prints, a line of its standard error behind it."""
        (self.path / "log").write_bytes(log)
        ran = subprocess.run([self.program, "audit", str(self.path)], capture_output=True, text=True, check=False)
        return ran.returncode, (ran.stdout + ran.stderr.split("\n")[0]).strip()

    def wanted(self, log: bytes) -> tuple[int, str]:
        judge = Verdict(self.seed.system.bases, read_scripts(self.seed.scripts))
        every = [entry for group in serial.groups(log, len(self.seed.front)) for entry in group]
        for place, entry in enumerate(every):
            try:
                judge.take(entry)
            except serial.Illegal:
                return ILLEGAL, f"illegal entry {place}"
        return LEGAL, f"legal {len(every)}"

    def logs(self):
        """The seed's log, and those in which a field of an entry is another."""
        yield "as it is", self.log(self.bodies)
        place = 0
        for number, group in enumerate(self.groups):
            for at, entry in enumerate(group):
                for fields in field_changes(entry, place):
                    if is_entry(fields):
                        bodies = [list(one) for one in self.bodies]
                        bodies[number][at] = spelled(fields)
                        yield f"entry {place}: {fields}", self.log(bodies)
                place += 1

    def differing(self):
        """How many logs were tried, how many of them are legal, and those of which the program says anything else."""
        tried, legal, faults = 0, 0, []
        for what, log in self.logs():
            wanted, found = self.wanted(log), self.answer(log)
            tried, legal = tried + 1, legal + (wanted[0] == LEGAL)
            if wanted != found:
                faults.append(f"{what}: {found}, wanted {wanted}")
        return tried, legal, faults


def plain(entry):
    """The bytes of an entry that was read."""
    return entries.entry([entry.kind, *entry.detail], entry.start, entry.line, entry.reply, entry.notes, entry.items)
