"""What a seed is: a drawn system, some runs over one log, and what must come of each, also from each group on."""
from vectors_of.texts import Draws

from . import scripts, serial
from .cases import drawn_event, rows
from .numbered import NumberedMachine, front
from .systems import System

BASIS, PRIME = 0xCBF29CE484222325, 0x100000001B3
# How often each event is drawn.
WEIGHTS = [
    {"IN": 30, "R": 60, "LOG": 4, "CKPT": 0, "OUT": 0},
    {"IN": 40, "R": 60, "LOG": 4, "CKPT": 2, "OUT": 1},
    {"IN": 24, "R": 60, "LOG": 9, "CKPT": 1, "OUT": 0},
]


def digest(data):
    """64 bits of bytes: FNV-1a."""
    found = BASIS
    for byte in data:
        found = (found ^ byte) * PRIME % 2**64
    return f"{found:016x}"


class Run:
    """One run over a log: its lines and events, and what came of it."""

    def __init__(self, lines, events, dids, machine, began):
        self.lines, self.events, self.dids = lines, events, dids
        self.log, self.sent = machine.log + b"\x00", machine.sent
        # The groups that stood as it began, and of each mark from there on where the log and what was sent end.
        self.began, self.marks = began, machine.marks[began:]
        self.shown = [machine.show_behind(began + place) for place in range(len(self.marks))]
        self.machine = machine

    def again(self, place):
        """What the same run leaves, and sends, that begins behind so many of its groups."""
        machine = self.machine.again(self.began + place, self.lines)
        for event in self.events:
            machine.step(event)
        machine.drain()
        return machine.log + b"\x00", machine.sent, machine.show()


class Seed:
    """The system and the runs of a number."""

    def __init__(self, number):
        self.number = number
        self.draws = Draws(7_919 * number + 36)
        for _ in range(3):
            self.draws.below(2)
        self.system = System(self.draws)
        self.definitions, self.scripts = self.system.definitions(), self.system.script_text
        self.front = front(self.definitions.encode(), self.scripts.encode())
        system = self.system
        # The last number that each terminal asked with.
        self.asked = {}
        machine = NumberedMachine(system.bases, scripts.read(self.scripts), system.groups, system.log_group,
                                  system.tries, [], self.front)
        self.runs = []
        for _ in range(2 + self.draws.below(2)):
            self.runs.append(self.run(machine))
            machine = self.runs[-1].machine
        self.judge()

    def run(self, before):
        """A run behind another."""
        draws, left = self.draws, list(range(1, 15))
        lines = [self.line(left) for _ in range(6 + draws.below(9))]
        began = len(before.marks) - 1
        machine = before.again(began, [line.encode("latin-1") for line in lines])
        regions = [f"R{number + 1}" for number in range(len(self.system.groups))]
        weights = WEIGHTS[self.number % len(WEIGHTS)]
        bag = [event for event in ["IN", "LOG", "CKPT", "OUT"] for _ in range(weights[event])]
        bag += [region for region in regions for _ in range(weights["R"] // len(regions))]
        events, dids = [], []
        for _ in range(30 + draws.below(60)):
            events.append(drawn_event(draws, bag, machine))
            dids.append(machine.step(events[-1]))
        machine.drain()
        return Run([line.encode("latin-1") for line in lines], events, dids, machine, began)

    def line(self, left):
        """A line, mostly of a terminal that had none in this run. Most numbers are new, some are sent again, some are
        old."""
        draws = self.draws
        number = left.pop(draws.below(len(left))) if draws.below(10) else 1 + draws.below(14)
        terminal = f"T{number}"
        last = self.asked.get(terminal, 0)
        kind = draws.below(10)
        if kind == 0:
            return self.system.line(terminal, 0)
        number = max(1, last + [0, 0, -1][draws.below(3)]) if kind < 4 and last else last + 1 + draws.below(2)
        self.asked[terminal] = max(last, number)
        return self.system.line(terminal, number)

    def judge(self):
        """Holds the table of turns against the serial replay: two ways to the same states."""
        last = self.runs[-1]
        history, _ = serial.replay(last.log, len(self.front), self.system.bases, scripts.read(self.scripts))
        for mark, (_, count, _) in enumerate(last.machine.marks):
            if history.show(count) != last.machine.show_behind(mark):
                raise serial.Illegal(f"seed {self.number}: other databases behind group {mark}")

    def events(self):
        return sum(len(run.events) for run in self.runs)

    def text(self):
        """The seed as it stands in a file."""
        yield f"=== seed {self.number}"
        yield from self.definitions.splitlines()
        yield "--- scripts"
        yield from self.scripts.splitlines()
        for run in self.runs:
            yield "--- lines"
            yield from (line.decode("latin-1") for line in run.lines)
            yield "--- events"
            yield from rows(run.events)
            yield "--- groups"
            yield f"{digest(run.log)} {digest(run.sent)}"
            for place, ((length, _, sent), shown) in enumerate(zip(run.marks, run.shown)):
                log, told, _ = run.again(place)
                yield f"{length} {sent} {digest(shown.encode())} {digest(log)} {digest(told)}"


def text_of(found):
    """The file of seeds."""
    lines = ["Drawn systems and runs, and what must come of each: written by scripts/storm."]
    for seed in found:
        lines += seed.text()
    return "".join(f"{line}\n" for line in lines)
