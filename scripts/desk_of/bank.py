"""The folder of a bank: its parts, one run of the program over it, and the last number of each terminal."""
import fcntl
import os
import re
import subprocess
import time
import tomllib
from pathlib import Path

# Of an entry that uses up a number, as `log` writes it: the terminal and the number.
USED = re.compile(rb"\d+ from \d+ notes \S+ "
                  rb"(?:DONE|VERIFY \S+ \S+|ROLB \d+|SEQFULL \S+ \S+ \S+ \S+|DEADLOCK \S+|DEVICE|MEMORY|UNKNOWN) "
                  rb"([A-Z][A-Z0-9]{0,7}) ([1-9]\d{0,17}) ")
# How many turns of a region a message gets in a schedule. The drain takes what they don't suffice for.
TURNS = 12
# Statuses that may pass: the folder is in use or a device failed, and there was no memory.
PASSING = (6, 10)
# How long to wait before such a command is tried again, in seconds.
PAUSE = 0.02


class Refused(Exception):
    """The program says that the folder can't be run."""


def schedule(messages: int, regions: int, log_group: int) -> str:
    """A schedule in which the regions take turns one by one: all lines are taken in first, and at the end all entries
    are sealed."""
    rounds = -(-messages * TURNS // regions)
    groups = -(-messages // log_group)
    turns = [f"R{region}" for region in range(1, regions + 1)]
    lines = [["IN"] * messages, *([turns] * rounds), ["LOG"] * groups]
    return "".join(" ".join(line) + "\n" for line in lines)


def passes(status: int) -> bool:
    """Whether a command that ended so may be tried again: it was killed, or what stopped it may be gone."""
    return status < 0 or status in PASSING


class Bank:
    """A folder, and the program that serves it."""

    def __init__(self, program: str, folder: str):
        self.program, self.folder = str(program), Path(folder)
        definitions = tomllib.loads((self.folder / "defs.toml").read_text())
        self.regions = len(definitions["regions"])
        self.log_group = definitions.get("log_group", 100)
        # One desk has the folder at a time. A run inherits the lock, so that a desk that follows one that was killed
        # waits for the run which that one left.
        self.lock = os.open(self.folder / "desk.lock", os.O_RDWR | os.O_CREAT, 0o600)
        fcntl.flock(self.lock, fcntl.LOCK_EX)

    def last_numbers(self) -> dict[str, int]:
        """The last number of each terminal that the log has."""
        found = {}
        for line in self.log().splitlines():
            entry = USED.match(line)
            if entry:
                found[entry[1].decode()] = int(entry[2])
        return found

    def log(self) -> bytes:
        """The text of the log."""
        while True:
            done = subprocess.run([self.program, "log", str(self.folder)], capture_output=True, check=False)
            if done.returncode == 0:
                return done.stdout
            if not passes(done.returncode):
                raise Refused(done.stderr.decode(errors="replace").strip())
            time.sleep(PAUSE)

    def start(self, lines: list[str]) -> subprocess.Popen:
        """Writes these message lines and their schedule, and starts a run."""
        self.put("schedule.txt", schedule(len(lines), self.regions, self.log_group))
        self.put("messages.txt", "".join(f"{line}\n" for line in lines))
        return subprocess.Popen([self.program, "run", str(self.folder)], stdout=subprocess.PIPE,
                                stderr=subprocess.PIPE, pass_fds=[self.lock])

    def put(self, name: str, text: str) -> None:
        """Puts a file in the place of one of its name, whole."""
        new = self.folder / f"{name}.new"
        new.write_text(text, encoding="ascii")
        os.replace(new, self.folder / name)
