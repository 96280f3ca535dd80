#!/usr/bin/env python3
"""Writes the calls of crates/dedb_storm/data, by rules of its own, and what its program must print.

    scripts/dedb_storm.py           writes the files
    scripts/dedb_storm.py --check   tells whether they are what it would write
    scripts/dedb_storm.py --count   tells how often each kind of call is answered by each status

It reads nothing that the product wrote. The rules of calls to data entry databases are written down here once more, in
another language: a database is one whole list of segments, each with its path, and a get goes through all of them.
"""
import sys
from pathlib import Path

CRATE = Path(__file__).resolve().parent.parent / "crates" / "dedb_storm"

TRANSACTIONS = 40
CALLS = 250

DEFINITIONS = """regions = [1]
router = "FOLD"
[[dedb]]
name = "TREE"
randomizer = "FOLD"
ci = 512
[[dedb.segment]]
name = "ROOT"
fields = [["RKEY", "C", 2], ["RTEXT", "C", 1]]
[[dedb.segment]]
name = "NOTE"
parent = "ROOT"
sequential = true
fields = [["NTEXT", "C", 3]]
[[dedb.segment]]
name = "ASON"
parent = "ROOT"
fields = [["AKEY", "C", 1], ["ATEXT", "C", 1]]
[[dedb.segment]]
name = "BSON"
parent = "ROOT"
fields = [["BKEY", "C", 1], ["BTEXT", "C", 2]]
[[dedb.segment]]
name = "CSON"
parent = "ROOT"
fields = [["CKEY", "C", 2], ["CTEXT", "C", 2]]
[[dedb.segment]]
name = "DGRAND"
parent = "BSON"
fields = [["DKEY", "C", 1], ["DTEXT", "C", 1]]
[[dedb.area]]
name = "AREA1"
uows = 1
base = 3
overflow = 1
capacity = 100
[[dedb.area]]
name = "AREA2"
uows = 1
base = 2
overflow = 0
capacity = 100
[[dedb]]
name = "LINE"
randomizer = "RANGE"
ci = 512
[[dedb.segment]]
name = "TOP"
fields = [["TKEY", "C", 1], ["TTEXT", "C", 1]]
[[dedb.segment]]
name = "MID"
parent = "TOP"
fields = [["MKEY", "C", 1], ["MTEXT", "C", 1]]
[[dedb.segment]]
name = "LOW"
parent = "MID"
fields = [["LKEY", "C", 1], ["LTEXT", "C", 1]]
[[dedb.segment]]
name = "LEAF"
parent = "LOW"
fields = [["FKEY", "C", 1], ["FTEXT", "C", 1]]
[[dedb.area]]
name = "AREA3"
uows = 2
base = 2
overflow = 0
"""

NO_PARENT = None
# Of each type: its parent, whether it is sequential, the length of its key, and that of its segments.
TREE = [
    (NO_PARENT, False, 2, 3), (0, True, 0, 3), (0, False, 1, 2), (0, False, 1, 3), (0, False, 2, 4), (3, False, 1, 2),
]
LINE = [(NO_PARENT, False, 1, 2), (0, False, 1, 2), (1, False, 1, 2), (2, False, 1, 2)]

ROOT_KEYS = [["AA", "AB", "BA", "CC", "DA", "EE", "ZZ"], ["A", "M", "a", "z", "5"]]
LETTERS = "ABC"

KINDS = ["GU", "GHU", "GN", "GHN", "GNP", "GHNP", "FLD", "ISRT", "REPL", "DLET"]
STATUSES = ["  ", "AM", "GE", "GB", "GP", "II", "DJ", "DA"]


def fold(key, n):
    place = 0
    for byte in key.encode():
        place = (place * 31 + byte) % n
    return place


def in_range(key, n):
    return int.from_bytes((key.encode() + bytes(4))[:4], "big") * n >> 32


class Database:
    """All segments, each by its anchor and its path from the root, and where one transaction is."""

    def __init__(self, types, anchor_of):
        self.types = types
        self.anchor_of = anchor_of
        # Of each path, with its anchor in front, the bytes that stand there. A path is types and keys, so that paths
        # in order are in hierarchical order.
        self.segments = {}
        self.place = None
        self.parent = None
        self.held = None
        self.queued = []

    def line(self, segment):
        """The types from the root down to one."""
        parent = self.types[segment][0]
        return ([] if parent is NO_PARENT else self.line(parent)) + [segment]

    def goes_down(self, ssas):
        """Whether types are named on one line downwards, each at most once, and no sequential one by a key."""
        for (upper, _), (lower, _) in zip(ssas, ssas[1:]):
            if upper == lower or upper not in self.line(lower):
                return False
        return not any(key is not None and self.types[segment][1] for segment, key in ssas)

    @staticmethod
    def admits(ssas, path):
        if not ssas:
            return True
        steps = path[1:]
        return steps[-1][0] == ssas[-1][0] and all(key is None or (segment, key) in steps for segment, key in ssas)

    def get(self, kind, ssas):
        hold = "H" in kind
        form = kind.replace("H", "")
        self.held = None
        if not self.goes_down(ssas):
            return "AM", None
        if form == "GNP" and self.parent is None:
            return "GP", None
        for path in sorted(self.segments):
            if form != "GU" and self.place is not None and path <= self.place:
                continue
            if form == "GNP" and (path[:len(self.parent)] != self.parent or path == self.parent):
                continue
            if self.admits(ssas, path):
                self.place = path
                if form != "GNP":
                    self.parent = path
                if hold:
                    self.held = path
                return "  ", (path[-1][0], self.segments[path])
        qualified = any(key is not None for _, key in ssas)
        return ("GB" if form == "GN" and not qualified else "GE"), None

    def isrt(self, ssas, text):
        self.held = None
        named = [segment for segment, _ in ssas]
        qualified = [key is not None for _, key in ssas]
        if not ssas or named != self.line(named[-1]) or qualified != [True] * (len(ssas) - 1) + [False]:
            return "AM", None
        segment = named[-1]
        key = text[:self.types[segment][2]]
        steps = ssas[:-1] + [(segment, key)]
        path = (self.anchor_of(steps[0][1]),) + tuple(steps)
        if len(path) > 2 and path[:-1] not in self.segments:
            return "GE", None
        if self.types[segment][1]:
            self.queued.append(path[:2])
            return "  ", None
        if path in self.segments:
            return "II", None
        self.segments[path] = text
        self.place = path
        return "  ", None

    def repl(self, text):
        held, self.held = self.held, None
        if held is None:
            return "DJ", None
        segment, key = held[-1]
        if text[:self.types[segment][2]] != key:
            return "DA", None
        self.segments[held] = text
        return "  ", None

    def dlet(self):
        held, self.held = self.held, None
        if held is None:
            return "DJ", None
        self.segments = {path: text for path, text in self.segments.items() if path[:len(held)] != held}
        self.queued = [root for root in self.queued if root != held]
        self.parent = None
        return "  ", None


class Draw:
    """A small generator of numbers, the same each time."""

    def __init__(self):
        self.state = 20261128

    def below(self, n):
        self.state = (self.state * 6364136223846793005 + 1442695040888963407) % 2**64
        return (self.state >> 33) % n

    def one_of(self, things):
        return things[self.below(len(things))]

    def letters(self, count):
        return "".join(self.one_of(LETTERS) for _ in range(count))

    def key(self, db, database, segment):
        return self.one_of(ROOT_KEYS[db]) if segment == 0 else self.letters(database.types[segment][2])

    def text(self, db, database, segment):
        _, _, key, length = database.types[segment]
        return (self.key(db, database, segment) if key else "") + self.letters(length - key)

    def get_ssas(self, db, database):
        if self.below(4) == 0:
            return []
        if self.below(12) == 0:
            return [self.ssa(db, database, self.below(len(database.types))) for _ in range(1 + self.below(3))]
        line = database.line(self.below(len(database.types)))
        upper = [self.ssa(db, database, segment) for segment in line[:-1] if self.below(2)]
        return upper + [self.last(db, database, line[-1])]

    def last(self, db, database, segment):
        return (segment, None) if database.types[segment][1] else self.ssa(db, database, segment)

    def ssa(self, db, database, segment):
        key = self.key(db, database, segment) if self.below(2) else None
        if key is not None and database.types[segment][1]:
            key = self.letters(2)
        return (segment, key)

    def isrt_ssas(self, db, database):
        if self.below(12) == 0:
            return self.get_ssas(db, database)
        line = database.line(self.one_of([0, 0] + list(range(len(database.types)))))
        # Half of the parents stand, so that the lowest levels fill.
        standing = [path[1:] for path in sorted(database.segments) if [it for it, _ in path[1:]] == line[:-1]]
        if standing and self.below(2):
            return list(self.one_of(standing)) + [(line[-1], None)]
        return [(segment, self.key(db, database, segment)) for segment in line[:-1]] + [(line[-1], None)]

    def call(self, db, database):
        """A kind, search arguments and bytes."""
        if database.held is not None and self.below(3):
            if self.below(3):
                segment, key = database.held[-1]
                text = self.text(db, database, segment)
                return "REPL", [], (key + text[len(key):] if self.below(3) else text)
            return "DLET", [], None
        kind = self.one_of(KINDS[:6] + ["ISRT"] * 4 + (KINDS[6:] if self.below(4) == 0 else ["ISRT", "GHU"]))
        if kind == "ISRT":
            ssas = self.isrt_ssas(db, database)
            return kind, ssas, self.text(db, database, ssas[-1][0] if ssas else 0)
        if kind == "REPL":
            segment = database.held[-1][0] if database.held is not None else self.below(len(database.types))
            return kind, [], self.text(db, database, segment)
        return kind, (self.get_ssas(db, database) if kind.startswith("G") else []), None


def answered(database, kind, ssas, text):
    if kind == "FLD":
        database.held = None
        return "AM", None
    if kind == "ISRT":
        return database.isrt(ssas, text)
    if kind == "REPL":
        return database.repl(text)
    if kind == "DLET":
        return database.dlet()
    return database.get(kind, ssas)


def shown_ssas(ssas):
    return ",".join(f"{segment}" if key is None else f"{segment}={key}" for segment, key in ssas) or "-"


def written():
    """The lines of the file, and how often each kind was answered by each status."""
    draw = Draw()
    lines = []
    counts = {kind: dict.fromkeys(STATUSES, 0) for kind in KINDS}
    for number in range(TRANSACTIONS):
        databases = [Database(TREE, lambda key: fold(key, 5)), Database(LINE, lambda key: in_range(key, 4))]
        lines.append(f"begin transaction {number}")
        for _ in range(CALLS):
            db = draw.below(2)
            kind, ssas, text = draw.call(db, databases[db])
            status, shown = answered(databases[db], kind, ssas, text)
            counts[kind][status] += 1
            found = "" if shown is None else f" {shown[0]}:{shown[1]}"
            lines.append(f"{db} {kind} {shown_ssas(ssas)} {text or '-'} => {status.replace(' ', '_')}{found}")
        lines.append(f"queued => {len(databases[0].queued) + len(databases[1].queued)}")
    return lines, counts


def verdict(name, lines):
    """What the program prints of a file of which no line differs."""
    scenarios = sum(line.startswith("begin ") for line in lines)
    return f"{name}: {scenarios} scenarios, {len(lines) - scenarios} steps, 0 differ"


def printed(lines):
    """The calls and the scenarios that were written by hand, in each way that they are asked."""
    customers = (CRATE / "data" / "customers.txt").read_text().splitlines()
    turns = (CRATE / "data" / "turns.txt").read_text().splitlines()
    return [
        verdict("calls.txt by dedb_calls", lines), verdict("calls.txt by past_calls", lines),
        verdict("customers.txt by dedb_calls", customers), verdict("customers.txt by past_calls", customers),
        verdict("turns.txt by dli_calls", turns), "0 without memory",
    ]


def counted(counts):
    """How often each kind of call was answered by each status."""
    for kind, by in counts.items():
        words = [f"{'blank' if status == '  ' else status} {count}" for status, count in by.items() if count]
        print(f"{kind} {sum(by.values())}: {', '.join(words)}")


def main():
    if sys.argv[1:] not in [[], ["--check"], ["--count"]]:
        print("usage: dedb_storm.py [--check | --count]")
        return 2
    lines, counts = written()
    if sys.argv[1:] == ["--count"]:
        counted(counts)
        return 0
    differ = 0
    texts = {
        CRATE / "data" / "defs.toml": DEFINITIONS,
        CRATE / "data" / "calls.txt": "".join(f"{line}\n" for line in lines),
        CRATE / "stdout": "".join(f"{row}\n" for row in printed(lines)),
    }
    for path, text in texts.items():
        if not sys.argv[1:]:
            path.parent.mkdir(parents=True, exist_ok=True)
            path.write_text(text)
        elif not path.exists() or path.read_text() != text:
            print(f"{path.name} isn't what this program writes")
            differ = 1
    return differ


if __name__ == "__main__":
    sys.exit(main())
