"""The table of turns by whole lists: regions that run transactions side by side, one event after another."""
import re

from vectors_of import entries, messages

from . import databases
from .scripts import Script

# Of the front of a log: what it says of definitions and scripts isn't looked at.
FRONT = b"\x01IMSFPLG1" + b"\x00\x00\x00\x01D" + b"\x00\x00\x00\x00"


class Region:
    """A region at work on a message."""

    def __init__(self, line, place):
        self.line, self.tries = line, 0
        self.begin(place)

    def begin(self, place):
        """Begins a try behind so many entries."""
        self.place, self.notes, self.work = place, [], databases.Work()
        self.script, self.asked = None, None


class Machine:
    """The system at rest, behind no entry, with these lines to come."""

    def __init__(self, bases, scripts, groups, log_group, tries, lines):
        self.bases, self.scripts, self.groups = bases, scripts, groups
        self.log_group, self.tries = log_group, tries
        self.state = [base.start() for base in bases]
        self.lines, self.held = list(lines), None
        self.queues = {group: [] for group in groups}
        self.regions = [None for _ in groups]
        self.busy = set()
        # Pairs of a region and a segment: which it holds, and which it waits for.
        self.locks, self.requests = [], []
        # Of each entry its bytes, its line and what is sent for it.
        self.entries, self.sealed = [], 0
        self.log, self.sent = FRONT, b""
        self.outcomes = []

    # ---- events

    def step(self, event):
        """What an event does, in a word."""
        if event == "IN":
            return self.line_in()
        if event == "LOG":
            return self.seal()
        if event == "CKPT":
            before = self.sealed
            while self.seal() != "nothing":
                pass
            return f"sealed/{self.sealed - before}" if self.sealed > before else "nothing"
        if event == "OUT":
            return "nothing"
        return self.turn(int(event[1:]) - 1)

    def is_idle(self, event):
        """Whether an event does nothing, holds a line once more, or waits once more."""
        if event == "IN":
            return not self.lines and self.held is None or messages.terminal(self.held or b"") in self.busy
        if event[0] == "R":
            k = int(event[1:]) - 1
            if self.regions[k] is None:
                return not self.queues[self.groups[k]]
            return any(region == k and lock in [held for _, held in self.locks] for region, lock in self.requests)
        return self.sealed == len(self.entries)

    def is_drained(self):
        return not (self.lines or self.held is not None or any(self.queues.values()) or any(self.regions)
                    or self.sealed < len(self.entries))

    def drain(self):
        while not self.is_drained():
            for event in ["IN"] + [f"R{k + 1}" for k in range(len(self.regions))] + ["LOG"]:
                self.step(event)

    def line_in(self):
        if self.held is None:
            if not self.lines:
                return "nothing"
            self.held = self.lines.pop(0)
        line = self.held
        terminal = messages.terminal(line)
        if terminal in self.busy:
            return "held"
        self.held = None
        if terminal is not None:
            self.busy.add(terminal)
        return self.request(line)

    def request(self, line):
        """A line is queued for its group, or refused."""
        tran, _ = self.message(line)
        if tran not in self.scripts:
            self.append(["unknown"], len(self.entries), line)
            return "refused"
        self.queues[self.group(tran)].append(line)
        return "queued"

    def message(self, line):
        """The transaction and the text of a line."""
        return message(line)

    def group(self, tran):
        """The group that the router gives a transaction."""
        number = 0
        for byte in tran:
            number = (number * 31 + byte) % max(self.groups)
        return number + 1

    def seal(self):
        group = self.entries[self.sealed:self.sealed + self.log_group]
        if not group:
            return "nothing"
        body = b"".join(data for data, _, _ in group)
        self.log += b"\x01" + len(body).to_bytes(8, "big") + body
        for _, line, told in group:
            self.sent += told
            self.busy.discard(messages.terminal(line))
        self.sealed += len(group)
        return f"sealed/{len(group)}"

    def append(self, outcome, place, line, reply=b"", notes=(), items=()):
        """An entry behind the others."""
        data = entries.entry(outcome, place, line, reply, notes, items)
        told = messages.reply(f"roll {outcome[1]}" if outcome[0] == "roll" else outcome[0], line, reply)
        self.entries.append((data, line, told))
        self.outcomes.append(outcome[0])

    # ---- the turns of a region

    def turn(self, k):
        at = self.regions[k]
        if at is None:
            queue = self.queues[self.groups[k]]
            if not queue:
                return "nothing"
            self.regions[k] = Region(queue.pop(0), len(self.entries))
            return "took"
        if at.asked is None:
            self.ask(at)
        word, asked = at.asked
        if word == "roll":
            return self.end(k, ["roll", asked], notes=at.notes)
        if word == "reply":
            return self.finish(k, asked)
        lock = databases.needed(self.bases, at.work, asked)
        if lock is not None and (k, lock) not in self.locks:
            return self.lock(k, lock)
        answer = databases.answer(self.bases, self.state, at.work, asked)
        if answer.looks:
            at.notes.append(len(self.entries))
        self.ask(at, answer)
        return "answered"

    def ask(self, at, answer=None):
        """Runs the script to its next call, or its end."""
        if at.script is None:
            tran, text = self.message(at.line)
            at.script = Script(self.scripts[tran], text, self.bases).run()
        try:
            at.asked = ("call", at.script.send(answer))
        except StopIteration as end:
            at.asked = end.value

    def finish(self, k, reply):
        """A turn of a region whose script came to its reply."""
        at = self.regions[k]
        for lock in at.work.resources():
            if (k, lock) not in self.locks:
                return self.lock(k, lock)
        state, failure = databases.settled(self.bases, self.state, at.work)
        if failure is not None:
            return self.refuse(k, ["verify", *failure], at.notes)
        self.state = state
        self.end(k, ["done"], reply, at.notes, databases.items(at.work, state))
        return "committed"

    def lock(self, k, lock):
        """Asks for a segment."""
        self.requests = [pair for pair in self.requests if pair[0] != k]
        if all(other != lock for _, other in self.locks):
            self.locks.append((k, lock))
            return "gained"
        self.requests.append((k, lock))
        cycle = self.cycle([k])
        if cycle is None:
            return "waited"
        return self.refuse(k, ["deadlock", bytes(one + 1 for one in cycle)], [])

    def cycle(self, passed):
        """Of the cycles that go on from these regions and pass none twice, the first in the order of words."""
        wanted = [lock for region, lock in self.requests if region == passed[-1]]
        ahead = sorted(region for region, lock in self.locks if lock in wanted)
        if passed[0] in ahead:
            return passed
        found = (self.cycle(passed + [region]) for region in ahead if region not in passed)
        return next((cycle for cycle in found if cycle is not None), None)

    def refuse(self, k, outcome, notes):
        """Begins a transaction once more, or refuses it."""
        at = self.regions[k]
        if at.tries == self.tries:
            return self.end(k, outcome, notes=notes)
        self.release(k)
        at.tries += 1
        at.begin(len(self.entries))
        return "retried"

    def end(self, k, outcome, reply=b"", notes=(), items=()):
        at = self.regions[k]
        self.append(outcome, at.place, at.line, reply, notes, items)
        self.release(k)
        self.regions[k] = None
        return "refused"

    def release(self, k):
        self.locks = [pair for pair in self.locks if pair[0] != k]
        self.requests = [pair for pair in self.requests if pair[0] != k]

    # ---- what is there

    def show(self):
        """The text of all databases."""
        return "".join(f"{line}\n" for base, segments in zip(self.bases, self.state) for line in base.show(segments))


def message(line):
    """The transaction and the text of a line, or None and no text."""
    found = messages.read(line)
    if isinstance(found, str):
        return None, b""
    _, tran, text = re.fullmatch(rb"([^ ]*) ([^ ]*) (.*)", found).groups()
    return tran, text
