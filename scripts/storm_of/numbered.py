"""The table of turns over a log that has numbers: several runs, and runs from any group of the log on."""
import re

from vectors_of import entries, messages

from .turns import Machine


def front(definitions, scripts):
    """The open front of a log of format 2."""
    return (b"\x01IMSFPLG2" + len(definitions).to_bytes(4, "big") + definitions
            + len(scripts).to_bytes(4, "big") + scripts)


def read(line):
    """The terminal, the number or None, the transaction and the text of a line; None where it is no message."""
    found = messages.read(line, True)
    if isinstance(found, str):
        return None
    terminal, number, tran, text = re.fullmatch(rb"([^ ]*) (?:([1-9][0-9]*) )?([^ ]*) (.*)", found).groups()
    return terminal, number and int(number), tran, text


class NumberedMachine(Machine):
    """A machine whose lines may have numbers."""

    def __init__(self, bases, scripts, groups, log_group, tries, lines, log):
        super().__init__(bases, scripts, groups, log_group, tries, lines)
        self.log, self.first = log, len(log)
        # Of each terminal its last number and the line that it got, and both and the databases behind each entry.
        self.lasts = {}
        self.behind = [(self.lasts, self.state)]
        # Behind each group: how long the log is, how many entries it has, and how much was sent in this run.
        self.marks = [(len(log), 0, 0)]

    def again(self, mark, lines):
        """A machine at rest behind so many groups of this log, with other lines to come."""
        length, count, _ = self.marks[mark]
        other = NumberedMachine(self.bases, self.scripts, self.groups, self.log_group, self.tries, lines,
                                self.log[:length])
        other.lasts, other.state = self.behind[count]
        other.behind = self.behind[:count + 1]
        other.entries, other.outcomes, other.sealed = self.entries[:count], self.outcomes[:count], count
        other.marks = [(size, sealed, 0) for size, sealed, _ in self.marks[:mark + 1]]
        return other

    def message(self, line):
        found = read(line)
        return (None, b"") if found is None else found[2:]

    def request(self, line):
        found = read(line)
        last, kept = self.lasts.get(found[0], (0, b"")) if found else (0, b"")
        number = found[1] if found else None
        if number is None or number > last:
            return super().request(line)
        outcome = ["old", last] if number < last else ["repeat", kept]
        self.append(outcome, len(self.entries), line)
        return "refused"

    def append(self, outcome, place, line, reply=b"", notes=(), items=()):
        word, *given = outcome
        data = entries.entry(outcome, place, line, reply, notes, items)
        spelled = f"{word} {given[0]}" if word in ["roll", "old"] else word
        told = messages.reply(spelled, line, reply, given[0] if word == "repeat" else b"")
        self.entries.append((data, line, told))
        self.outcomes.append(word)
        found = read(line)
        if found and found[1] is not None and word not in ["old", "repeat"]:
            self.lasts = {**self.lasts, found[0]: (found[1], told[:-1])}
        self.behind.append((self.lasts, self.state))

    def seal(self):
        did = super().seal()
        if did != "nothing":
            self.marks.append((len(self.log), self.sealed, len(self.sent)))
        return did

    def show_behind(self, mark):
        """The text of the databases behind so many groups."""
        _, state = self.behind[self.marks[mark][1]]
        return "".join(f"{line}\n" for base, segments in zip(self.bases, state) for line in base.show(segments))
