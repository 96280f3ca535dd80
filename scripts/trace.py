#!/usr/bin/env python3
"""Writes the log of crates/fp_trace/data and the table that its program must print, by rules of its own: the table of
turns by whole lists, which scripts/storm.py has.

    scripts/trace.py           writes data/log and stdout
    scripts/trace.py --check   tells whether they are what it would write
"""
import re
import sys
import tomllib
from pathlib import Path

sys.dont_write_bytecode = True
sys.path.insert(0, str(Path(__file__).resolve().parent))

from storm_of import scripts, serial
from storm_of.databases import Database
from storm_of.numbered import NumberedMachine, front

CRATE = Path(__file__).resolve().parent.parent / "crates" / "fp_trace"
HEAD = "turn  event   did        lock          entry  group  about"


def text_of(data):
    """Bytes with a period for each that isn't printable."""
    return "".join(chr(byte) if 32 <= byte <= 126 else "." for byte in data)


class Watched(NumberedMachine):
    """A machine that tells what each turn is about: a line, a call, a lock, an entry."""

    about, locked = "", ""

    def line_in(self):
        before = self.held if self.held is not None else (self.lines[0] if self.lines else b"")
        did = super().line_in()
        if did != "refused":
            self.about = "" if did == "nothing" else text_of(before)
        return did

    def turn(self, k):
        did = super().turn(k)
        if did == "took":
            self.about = text_of(self.regions[k].line)
        return did

    def ask(self, at, answer=None):
        asked = at.asked
        super().ask(at, answer)
        if answer is not None:
            self.about = f"{self.call(asked[1])} -> {self.answer(asked[1], answer)}"

    def lock(self, k, lock):
        asked = self.regions[k].asked
        self.about = self.call(asked[1]) if asked[0] == "call" else "sync point"
        self.locked = f"{self.bases[lock[0]].name} {text_of(lock[1])}"
        did = super().lock(k, lock)
        self.locked = self.locked if did in ["gained", "waited"] else ""
        return did

    def append(self, *given, **named):
        super().append(*given, **named)
        self.about = entry_text(serial.Entry(self.entries[-1][0][8:]))

    def call(self, call):
        """A call as scripts have it, with its values."""
        word, base, given = call[0], self.bases[call[1]], call[2]
        if word == "FLD":
            words = " ".join(f"{name} {op} {operand.decode()}" for name, op, operand in call[3])
            return f"FLD {base.name} KEY({text_of(given)}) {words}"
        if word in ["ISRT", "REPL"]:
            return f"{word} {base.name} {self.fields(base, given)}"
        return f"{word} {base.name}" + (f" KEY({text_of(given)})" if given is not None else "")

    def fields(self, base, segment):
        """The fields of a segment."""
        *_, line = base.show({base.key(segment): segment})
        return line.strip()

    def answer(self, call, answer):
        """An answer: the segment shown, or the status and the letters."""
        if answer.segment is not None:
            return self.fields(self.bases[call[1]], answer.segment)
        if answer.status == "  ":
            return "good"
        return f"{answer.status} {answer.letters.replace(' ', '-')}".strip()


def entry_text(entry):
    """An entry as the text of the log has it, behind its place."""
    details = {"verify": lambda call, fsa, found: f"{call}.{fsa} {found.hex() or '-'}", "roll": str, "old": str,
               "deadlock": lambda cycle: ",".join(map(str, cycle))}
    word = {"roll": "ROLB"}.get(entry.kind, entry.kind.upper())
    outcome = f"{word} {details[entry.kind](*entry.detail)}" if entry.kind in details else word
    notes = ",".join(map(str, entry.notes)) or "-"
    return (f"from {entry.start} notes {notes} {outcome} {text_of(entry.line) or '-'} => "
            f"{text_of(entry.reply) or '-'}")


def row(number, event, did, machine, entry, groups):
    """A line of the table."""
    word, _, count = did.partition("/")
    word = {"waited": "waits"}.get(word, word)
    about = f"{count} entries, and their reply lines" if word == "sealed" else machine.about
    span = "" if not groups else f"{groups[0]}" if len(groups) == 1 else f"{groups[0]}-{groups[-1]}"
    line = f"{number:4}  {event:6}  {word:9}  {machine.locked:12}  {entry:>5}  {span:>5}  {about}"
    return line.rstrip()


def tell(machine, number, event):
    """Takes an event, and tells it."""
    machine.about = machine.locked = ""
    entries, groups = len(machine.entries), len(machine.marks) - 1
    did = machine.step(event)
    entry = str(entries) if len(machine.entries) > entries else ""
    return row(number, event, did, machine, entry, list(range(groups, len(machine.marks) - 1))), did


def table(machine, events):
    """The lines of a run, and of the drain behind it up to its last round in which something is done."""
    lines = [HEAD]
    for number, event in enumerate(events, 1):
        lines.append(tell(machine, number, event)[0])
    rounds, number = ["IN", *(f"R{k + 1}" for k in range(len(machine.regions))), "LOG"], len(events)
    begun = False
    while True:
        told = [tell(machine, number + place, event) for place, event in enumerate(rounds, 1)]
        if all(did == "nothing" for _, did in told):
            return lines
        if not begun:
            lines.append("      the schedule ends, and the drain begins")
        begun, number = True, number + len(rounds)
        lines += [line for line, _ in told]


def written():
    """The bytes of the log, and the text of the table."""
    data = CRATE / "data"
    definitions, text = (data / "defs.toml").read_bytes(), (data / "scripts.txt").read_bytes()
    found = tomllib.loads(definitions.decode())
    bases = [Database(one["name"], one.get("dynamic", False), one["fields"], one.get("load", []))
             for one in found["msdb"]]
    lines = (data / "messages.txt").read_bytes().split(b"\n")[:-1]
    machine = Watched(bases, scripts.read(text.decode()), found["regions"], found.get("log_group", 100),
                      found.get("tries", 0), lines, front(definitions, text))
    told = table(machine, re.findall(r"\S+", (data / "schedule.txt").read_text()))
    log = machine.log + b"\x00"
    told.append(f"log: the folder's is the one that was made, {len(log)} bytes")
    return log, "".join(f"{line}\n" for line in told)


def main():
    if sys.argv[1:] not in [[], ["--check"]]:
        print("usage: trace.py [--check]")
        return 2
    log, told = written()
    differ = 0
    for path, data in {CRATE / "data" / "log": log, CRATE / "stdout": told.encode()}.items():
        if not sys.argv[1:]:
            path.write_bytes(data)
        elif not path.exists() or path.read_bytes() != data:
            print(f"{path.name} isn't what this program writes")
            differ = 1
    return differ


if __name__ == "__main__":
    sys.exit(main())
