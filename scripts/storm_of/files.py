"""A seed tried on the built programs: over sites in memory by the program seed_storm, and over files, where each run is
killed before each of its calls and each call fails once, by strace."""
import random
import re
import subprocess
import tempfile
from collections import Counter
from dataclasses import dataclass
from pathlib import Path

from . import seeds

# The calls on the log before which a run is killed, those that fail once, and those that reach the output.
KILLED = ["pwrite64", "fsync"]
FAILING = ["pwrite64", "fsync", "pread64", "flock", "openat"]
OUTPUT = "write"
CALL = re.compile(r"(?:\d+ +)?(\w+)\((.*)\) += (-?\d+)")
WRITTEN = re.compile(r'\d+, "((?:\\x[0-9a-f]{2})*)", \d+, (\d+)')
# What a run may answer whose call fails: a part can't be read, or the site fails.
FAULTS = (5, 6)


def in_memory(program: str, seed: seeds.Seed, images: int) -> list[str]:
    """What differs of a seed over sites in memory."""
    with tempfile.NamedTemporaryFile("w", suffix=".txt") as file:
        file.write(seeds.text_of([seed]))
        file.flush()
        ran = subprocess.run([program, file.name, str(images)], capture_output=True, text=True, check=False)
    lines = ran.stdout.splitlines()
    if ran.returncode == 0 and lines == [f"1 seeds, {seed.events()} events, 0 differ"]:
        return []
    return [f"in memory, {line}" for line in lines[:-1]] or [f"seed_storm ended with {ran.returncode}: {ran.stderr}"]


@dataclass
class Traced:
    """A run of the program under strace."""
    status: int
    out: bytes
    # The calls that were made, in order: name, arguments, answer.
    calls: list[tuple[str, str, int]]


class Folder:
    """A folder of a seed, with what stands in it before the run that is tried."""

    def __init__(self, program: str, path: str, seed: seeds.Seed):
        self.program, self.path = program, Path(path)
        self.put("defs.toml", seed.definitions)
        self.put("scripts.txt", seed.scripts)
        self.first = len(seed.front)

    def put(self, name: str, text: str) -> None:
        (self.path / name).write_text(text, encoding="latin-1")

    def log(self) -> bytes:
        return (self.path / "log").read_bytes()

    def put_log(self, data: bytes) -> None:
        (self.path / "log").write_bytes(data)

    def ask(self, command: str) -> tuple[int, bytes]:
        """The status of a command, and what it prints."""
        ran = subprocess.run([self.program, command, str(self.path)], capture_output=True, check=False)
        return ran.returncode, ran.stdout

    def traced(self, inject: str = "", on_log: bool = True) -> Traced:
        """A run under strace, which may do something at a call on the log, or on any call."""
        note = self.path / "trace"
        words = ["strace", "-xx", "-s", "1000000", "-o", str(note), "-e", f"trace={','.join({*FAILING, OUTPUT})}"]
        words += ["-P", str(self.path / "log"), "-P", str(self.path)] if on_log else []
        words += ["-e", f"inject={inject}"] if inject else []
        ran = subprocess.run([*words, self.program, "run", str(self.path)], capture_output=True, check=False)
        found = [CALL.match(line) for line in note.read_text().splitlines()]
        return Traced(ran.returncode, ran.stdout, [(call[1], call[2], int(call[3])) for call in found if call])


# ---- what a crash may leave

def mixed(draws: random.Random, base: bytearray, at: int, data: bytes) -> None:
    """A write that the crash cut: nothing of it, all, a first part, or some of its bytes."""
    kind = draws.randrange(4)
    if kind == 0:
        return
    data = data[:draws.randrange(len(data) + 1)] if kind == 2 else data
    base.extend(bytes(max(0, at + len(data) - len(base))))
    for place, byte in enumerate(data, at):
        if kind != 3 or draws.randrange(2):
            base[place] = byte


def torn(before: bytes, calls: list[tuple[str, str, int]], draws: random.Random) -> bytes:
    """The log that a crash behind these calls may leave: what a sync made durable, and parts of what was written since.
    Each byte is as it was, or as it was to be."""
    durable, pending = bytearray(before), []
    for name, arguments, answer in calls:
        written = WRITTEN.fullmatch(arguments) if name == "pwrite64" and answer > 0 else None
        if written:
            pending.append((int(written[2]), bytes.fromhex(written[1].replace("\\x", ""))[:answer]))
        if name == "fsync" and answer == 0:
            for at, data in pending:
                durable.extend(bytes(max(0, at + len(data) - len(durable))))
                durable[at:at + len(data)] = data
            pending = []
    for at, data in pending:
        mixed(draws, durable, at, data)
    return bytes(durable)


# ---- how what stands is judged

def closed_gate(log: bytes, first: int) -> int:
    """Where the first gate stands that isn't open."""
    at = first
    while log[at:at + 1] == b"\x01":
        at += 9 + int.from_bytes(log[at + 1:at + 9], "big")
    return at


class Judge:
    """What is wanted of a run that was stopped, behind each of its groups."""

    def __init__(self, folder: Folder, run: seeds.Run):
        self.folder, self.run = folder, run
        self.ends = [length for length, _, _ in run.marks]
        self.known: dict[int, tuple[bytes, bytes, str]] = {}

    def again(self, place: int) -> tuple[bytes, bytes, str]:
        if place not in self.known:
            self.known[place] = self.run.again(place)
        return self.known[place]

    def fault(self, log: bytes, sent: bytes) -> str | None:
        """What is wrong with a log that a stop left, and with what was sent by then."""
        end = closed_gate(log, self.folder.first)
        if end not in self.ends or log[:end] != self.run.log[:end]:
            return "the log isn't a front of the whole one"
        place = self.ends.index(end)
        if not self.run.sent.startswith(sent) or len(sent) > self.run.marks[place][2]:
            return "something was sent that isn't in the log"
        self.folder.put_log(log)
        if self.folder.ask("show") != (0, self.run.shown[place].encode()):
            return f"other databases behind {place} groups"
        wanted, told, _ = self.again(place)
        if self.folder.ask("run") != (0, told):
            return f"the run again, behind {place} groups, sends something else"
        log = self.folder.log()
        end = closed_gate(log, self.folder.first)
        return None if log[:end] + b"\x00" == wanted else f"the run again, behind {place} groups, leaves another log"


def over_files(program: str, seed: seeds.Seed, images: int) -> tuple[list[str], int]:
    """What differs of a seed over files, and at how many stops it was tried."""
    faults, stops = [], 0
    with tempfile.TemporaryDirectory() as path:
        folder = Folder(program, path, seed)
        if folder.ask("define") != (0, b"") or folder.log() != seed.front + b"\x00":
            return ["define"], 0
        for number, run in enumerate(seed.runs):
            found, count = tried(folder, run, random.Random(f"{seed.number} {number}"), images)
            faults += [f"over files, run {number}, {fault}" for fault in found]
            stops += count
            folder.put_log(run.log)
    return faults, stops


def tried(folder: Folder, run: seeds.Run, draws: random.Random, images: int) -> tuple[list[str], int]:
    """A run tried whole, killed before each call, and with each call failing once. What is wrong, and how many stops
    there were."""
    before, judge, faults = folder.log(), Judge(folder, run), []
    folder.put("messages.txt", "".join(f"{line.decode('latin-1')}\n" for line in run.lines))
    folder.put("schedule.txt", " ".join(run.events))
    whole, output = folder.traced(), None
    if (whole.status, whole.out, folder.log()) != (0, run.sent, run.log):
        return ["the whole run"], 0
    folder.put_log(before)
    output = folder.traced(on_log=False)
    made = Counter(name for name, _, _ in whole.calls)
    plans = [(name, count, True) for name in FAILING for count in range(1, made[name] + 1)]
    plans += [(OUTPUT, count, False) for count in range(1, sum(call[0] == OUTPUT for call in output.calls) + 1)]
    stops = 0
    for name, count, on_log in plans:
        if name in KILLED or not on_log:
            faults += killed(folder, judge, before, (name, count, on_log), draws, images)
            stops += 1
        faults += failed(folder, judge, before, (name, count, on_log))
        stops += 1
    return faults, stops


def killed(folder: Folder, judge: Judge, before: bytes, plan, draws: random.Random, images: int) -> list[str]:
    """A run that is killed before a call: what stands, and what a crash may leave there."""
    name, count, on_log = plan
    folder.put_log(before)
    ran = folder.traced(f"{name}:signal=KILL:when={count}", on_log)
    left = [folder.log()] + ([torn(before, ran.calls, draws) for _ in range(images - 1)] if on_log else [])
    if ran.status >= 0 and ran.status != 137:
        return [f"{name} {count}: it isn't killed, and ends with {ran.status}"]
    found = [judge.fault(log, ran.out) for log in left]
    return [f"killed before {name} {count}, image {image}: {fault}" for image, fault in enumerate(found) if fault]


def failed(folder: Folder, judge: Judge, before: bytes, plan) -> list[str]:
    """A run of which a call fails: it says so, or did without it, and what stands is good."""
    name, count, on_log = plan
    folder.put_log(before)
    ran = folder.traced(f"{name}:error=EIO:when={count}", on_log)
    if ran.status not in FAULTS:
        return [f"{name} {count} fails: it ends with {ran.status}"]
    fault = judge.fault(folder.log(), ran.out)
    return [f"{name} {count} fails: {fault}"] if fault else []
