"""The trials of a desk: terminals that ask while program and desk are killed, and what runs cost."""
import os
import random
import re
import signal
import statistics
import subprocess
import tempfile
import threading
import time
from collections import Counter
from pathlib import Path

from .bank import Bank
from .teller import Teller

ACCOUNTS = [f"A{number:03}" for number in range(1, 7)]
BEGUN = 100
TERMINALS = 12
DEFINITIONS = f"""regions = [1, 1, 2, 2]
router = "FOLD"
log_group = 4
[[msdb]]
name = "ACCTS"
fields = [["ACCT", "C", 4], ["BAL", "P", 5]]
load = {[[account, str(BEGUN)] for account in ACCOUNTS]}
""".replace("'", '"')
SCRIPTS = """TRAN DEPOSIT
FLD ACCTS KEY(#1) BAL + #2
IF STATUS NE ''
ROLB 1
END
REPLY 'NEW'
TRAN WDRAW
FLD ACCTS KEY(#1) BAL H #2 BAL - #2
IF STATUS NE ''
ROLB 7
END
REPLY 'PAID ' #2
TRAN MOVE
GHU ACCTS KEY(#1)
SET X IO.BAL - #3
IF X LT 0
ROLB 7
END
REPL ACCTS BAL=X
GHU ACCTS KEY(#2)
SET Y IO.BAL + #3
REPL ACCTS BAL=Y
REPLY 'MOVED'
"""
SHOWN = re.compile(r"ACCT=(\w+) BAL=(-?\d+)")
ENTRY = re.compile(r"\d+ from \d+ notes \S+ (DONE|VERIFY \S+ \S+|ROLB \d+|DEADLOCK \S+) (\w+) (\d+) (.*) => (.*)")
# A kill comes within so many times of an empty run's time behind the beginning of a run.
LONGEST = 3


def request(draw: random.Random) -> str:
    """What a terminal asks."""
    one, other = draw.sample(ACCOUNTS, 2)
    amount = draw.randint(1, 40)
    return draw.choice([f"DEPOSIT {one} {amount}", f"WDRAW {one} {amount}", f"MOVE {one} {other} {amount}"])


def effects(request: str, reply: str) -> Counter:
    """What an answered request does to the accounts."""
    word, *rest = request.split()
    moved: Counter = Counter()
    if not reply.startswith("OK"):
        return moved
    if word == "DEPOSIT":
        moved[rest[0]] += int(rest[1])
    elif word == "WDRAW":
        moved[rest[0]] -= int(rest[1])
    else:
        moved[rest[0]] -= int(rest[2])
        moved[rest[1]] += int(rest[2])
    return moved


class Customers:
    """The terminals: each asks in a thread of its own until it is told to end."""

    def __init__(self, path: str, seed: int, count: int):
        self.over = threading.Event()
        # Of each terminal its requests and their replies, in order.
        self.told: dict[str, list[tuple[str, str]]] = {f"T{number}": [] for number in range(1, count + 1)}
        self.tellers = {name: Teller(path, name) for name in self.told}
        self.broken: list[str] = []
        self.threads = [threading.Thread(target=self.serve, args=(name, seed), daemon=True) for name in self.told]

    def serve(self, name: str, seed: int) -> None:
        draw = random.Random(f"{seed} {name}")
        try:
            while not self.over.is_set():
                asked = request(draw)
                self.told[name].append((asked, self.tellers[name].ask(asked)))
        except AssertionError as fault:
            self.broken.append(f"{name}: {fault}")

    def begin(self) -> None:
        for thread in self.threads:
            thread.start()

    def end(self) -> None:
        """Lets each ask to the end of what it asks."""
        self.over.set()
        for thread in self.threads:
            thread.join(60)
            if thread.is_alive():
                self.broken.append("a terminal gets no answer")

    def count(self) -> int:
        return sum(len(told) for told in self.told.values())


class House:
    """A folder with a desk, which is killed now and then."""

    def __init__(self, program: str, desk: str, folder: str):
        self.program, self.desk, self.folder = program, desk, folder
        self.socket = f"{folder}/desk.socket"
        make_folder(program, folder)
        for part in ["messages.txt", "schedule.txt"]:
            Path(folder, part).write_text("")
        began = time.monotonic()
        subprocess.run([program, "run", folder], check=True)
        # How long a run without messages takes.
        self.empty = time.monotonic() - began
        self.served = self.open()

    def open(self) -> subprocess.Popen:
        return subprocess.Popen([self.desk, self.folder, "--program", self.program, "--socket", self.socket,
                                 "--gather", "2"], stderr=subprocess.PIPE)

    def running(self) -> int | None:
        """The number of the program that the desk runs, if there is one."""
        try:
            children = Path(f"/proc/{self.served.pid}/task/{self.served.pid}/children").read_text().split()
        except OSError:
            return None
        return int(children[0]) if children else None

    def kill_program(self) -> bool:
        """Kills the program that is running. Whether there was one."""
        found = self.running()
        if found is None:
            return False
        try:
            os.kill(found, signal.SIGKILL)
        except ProcessLookupError:
            return False
        return True

    def kill_desk(self) -> None:
        """Kills the desk, and opens another."""
        self.served.kill()
        self.served.wait()
        self.served.stderr.close()
        self.served = self.open()

    def close(self) -> str:
        """Ends the desk. What it says."""
        self.served.terminate()
        said = self.served.communicate(timeout=60)[1].decode()
        if self.served.returncode != 0:
            raise AssertionError(f"the desk ended with {self.served.returncode}: {said}")
        return said.strip()

    def ask(self, command: str) -> str:
        return subprocess.run([self.program, command, self.folder], stdout=subprocess.PIPE, check=True).stdout.decode()


def await_run(house: House) -> None:
    """Waits for a run to begin, a while at most."""
    end = time.monotonic() + 1
    while house.running() is None and time.monotonic() < end:
        time.sleep(0.0005)


def kill_once(house: House, draw: random.Random, killed: Counter) -> None:
    """Kills the program, the desk, or one and then the other, at a random moment of a run."""
    await_run(house)
    time.sleep(draw.uniform(0, LONGEST * house.empty))
    kind = draw.choice(["program", "program", "desk", "both"])
    if kind != "desk" and not house.kill_program():
        return
    if kind != "program":
        house.kill_desk()
    killed[kind] += 1


def unbalanced(house: House, customers: Customers) -> list[str]:
    """What is wrong with the accounts and the log, by the replies."""
    wanted = Counter({account: BEGUN for account in ACCOUNTS})
    for told in customers.told.values():
        for asked, reply in told:
            wanted.update(effects(asked, reply))
    found = {account: int(balance) for account, balance in SHOWN.findall(house.ask("show"))}
    faults = [f"{account} has {found.get(account)} and not {wanted[account]}" for account in ACCOUNTS
              if found.get(account) != wanted[account]]
    return faults + misnumbered(house.ask("log"), customers)


def misnumbered(log: str, customers: Customers) -> list[str]:
    """Numbers that no entry uses up, or two, or one with another reply than the terminal's."""
    used: dict[tuple[str, int], list[tuple[str, str]]] = {}
    for outcome, name, number, asked, reply in ENTRY.findall(log):
        line = f"OK {reply}" if outcome == "DONE" else f"NO {outcome.split()[0] if outcome[:4] != 'ROLB' else outcome}"
        used.setdefault((name, int(number)), []).append((asked, line))
    wanted = {(name, number): [pair] for name, told in customers.told.items() for number, pair in enumerate(told, 1)}
    return [f"{key}: the log has {used.get(key)}, the terminal {wanted.get(key)}"
            for key in sorted(used.keys() | wanted.keys()) if used.get(key) != wanted.get(key)]


def kills(program: str, desk: str, times: int, seed: int) -> int:
    """Kills program and desk so many times while terminals ask. The exit status."""
    draw, killed = random.Random(seed), Counter()
    with tempfile.TemporaryDirectory() as folder:
        house = House(program, desk, folder)
        customers = Customers(house.socket, seed, TERMINALS)
        customers.begin()
        while killed.total() < times and not customers.broken:
            kill_once(house, draw, killed)
        customers.end()
        house.close()
        faults = customers.broken + unbalanced(house, customers)
    for fault in faults[:10]:
        print(f"desk-test: {fault}")
    kinds = ", ".join(f"{count} {kind}" for kind, count in sorted(killed.items()))
    links = sum(teller.links for teller in customers.tellers.values())
    print(f"desk-test: seed {seed}, {killed.total()} kills ({kinds}), {customers.count()} requests answered over "
          f"{links} connections: {'nothing lost, nothing twice' if not faults else f'{len(faults)} WRONG'}")
    return 1 if faults else 0


# ---- what runs cost

# How many terminals ask side by side, and for how long, in seconds.
SIZES = [1, 4, 16, 64, 200]
SPAN = 3.0
# How often one run is timed.
TRIES = 40


def figures(program: str, desk: str) -> int:
    """Prints what one run takes, and what a desk answers in a second, by how many terminals ask. The exit status."""
    print("| Messages | One run, the best of %d |\n|---|---|" % TRIES)
    for size in [0, *SIZES]:
        with tempfile.TemporaryDirectory() as folder:
            print(f"| {size} | {best_run(program, folder, size):.2f} ms |", flush=True)
    print()
    print("| Terminals | Answers a second | Median wait | Runs | Messages a run | Time of a run |\n|---|---|---|---|---|---|")
    for size in SIZES:
        with tempfile.TemporaryDirectory() as folder:
            print(measured(House(program, desk, folder), size), flush=True)
    return 0


def make_folder(program: str, folder: str) -> None:
    """Puts the parts of the trials into a folder, and makes its databases."""
    Path(folder, "defs.toml").write_text(DEFINITIONS)
    Path(folder, "scripts.txt").write_text(SCRIPTS)
    subprocess.run([program, "define", folder], check=True)


def best_run(program: str, folder: str, size: int) -> float:
    """How long a run of so many messages takes at best, from its start to its end, in milliseconds."""
    make_folder(program, folder)
    bank, draw, best = Bank(program, folder), random.Random(size), 1e9
    for number in range(1, TRIES + 1):
        lines = [f"T{terminal} {number} {request(draw)}" for terminal in range(size)]
        began = time.monotonic()
        ran = bank.start(lines)
        told = ran.communicate()[0]
        best = min(best, 1000 * (time.monotonic() - began))
        assert ran.returncode == 0 and told.count(b"\n") == size, ran.returncode
    return best


def measured(house: House, size: int) -> str:
    """A row of the table."""
    waits: list[float] = []
    customers = Customers(house.socket, 1, size)
    for teller in customers.tellers.values():
        teller.ask = timed(teller.ask, waits)
    began = time.monotonic()
    customers.begin()
    time.sleep(SPAN)
    customers.end()
    spent = time.monotonic() - began
    said = re.search(r"(\d+) runs, (\d+) messages, [\d.]+ s, ([\d.]+) ms", house.close())
    if said is None or customers.broken:
        raise AssertionError(f"{said} {customers.broken}")
    runs, messages, each = int(said[1]), int(said[2]), said[3]
    return (f"| {size} | {len(waits) / spent:.0f} | {1000 * statistics.median(waits):.1f} ms | {runs} "
            f"| {messages / runs:.1f} | {each} ms |")


def timed(ask, waits: list[float]):
    """A way to ask that notes how long the answer took."""
    def asks(request: str) -> str:
        began = time.monotonic()
        reply = ask(request)
        waits.append(time.monotonic() - began)
        return reply

    return asks
