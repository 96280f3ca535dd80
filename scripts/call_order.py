"""Traces `PROGRAM define FOLDER` and `PROGRAM run FOLDER`, and checks the order of their calls of the system."""
import os
import re
import subprocess
import sys

program, folder = sys.argv[1], sys.argv[2]
if os.path.exists(f"{folder}/log"):
    sys.exit(f"{folder} has a log, which this would define anew")
TRACED = "open,openat,flock,fsync,fdatasync,read,pread64,write,pwrite64,ftruncate,close"
BLOCK = 1 << 20
SITE_FAULT = 6
# So many that the log is longer than a block.
MESSAGES = 1000
CALL = re.compile(r"^(?:\d+ +)?(\w+)\((.*)\) += (-?\d+)")


def trace(command):
    """The calls that were made: the name, the arguments as text, and the answer."""
    out = f"{folder}/trace"
    line = ["strace", "-f", "-s", "0", "-e", f"trace={TRACED}", "-o", out, program, command, folder]
    ran = subprocess.run(line, stdout=subprocess.PIPE, check=True)
    with open(out, encoding="utf-8") as lines:
        found = [CALL.match(text) for text in lines]
    return [(call[1], call[2], int(call[3])) for call in found if call], ran.stdout


def first_number(text):
    return int(re.match(r"\d+", text)[0])


class Watch:
    """What is open, and what was done to it: a list of short words in the order of the calls."""

    def __init__(self, calls):
        self.names, self.did = {}, []
        for call, text, answer in calls:
            assert answer >= 0 or call in ("open", "openat"), f"{call}({text}) answered {answer}"
            self.take(call, text, answer)

    def take(self, call, text, answer):
        if call in ("open", "openat"):
            path = re.search(r'"(.*?)"', text)[1] if '""...' not in text else None
            if answer >= 0:
                self.names[answer] = path
            return
        number = first_number(text)
        name = "output" if number == 1 else self.names.get(number)
        if call == "close":
            self.names.pop(number, None)
        elif name is not None:
            self.did.append(self.word(call, text, name))

    def word(self, call, text, name):
        """The call, the file's own name, and of a read or write at a place its length and place."""
        name = "." if name == folder else name.removeprefix(f"{folder}/")
        if call in ("pread64", "pwrite64"):
            length, place = (int(part) for part in text.split(", ")[-2:])
            return (call, name, length, place)
        if call == "flock":
            return ("flock", name, "LOCK_EX" in text and "LOCK_NB" in text)
        return (call, name)


def index(did, word, start=0):
    assert word in did[start:], f"no {word} behind call {start}"
    return did.index(word, start)


def check_opening(did, length):
    """The lock comes before all else on a log of this length. Then each block is read and written back, and the log is
    synced. What was done behind that."""
    log = [n for n, word in enumerate(did) if word[1] == "log"]
    assert index(did, ("flock", ".", True)) < log[0], "the log is used before the lock"
    wanted = []
    for place in range(0, length, BLOCK):
        count = min(BLOCK, length - place)
        wanted += [("pread64", "log", count, place), ("pwrite64", "log", count, place)]
    wanted.append(("fsync", "log"))
    settled = log[:len(wanted)]
    assert [did[n] for n in settled] == wanted, "the log isn't rewritten and synced first"
    return did[settled[-1] + 1:]


def check_groups(did):
    """Each write of more than one byte is synced, then one byte is written in front of it, then that is synced."""
    groups = 0
    writes = [n for n, word in enumerate(did) if word[0] == "pwrite64" and word[2] > 1]
    for n in writes:
        _, name, _, place = did[n]
        wanted = [("fsync", name), ("pwrite64", name, 1, place - 1), ("fsync", name)]
        behind = [word for word in did[n + 1:] if word[1] != "."][:3]
        assert behind == wanted, f"behind a write at {place}: {behind}"
        groups += 1
    return groups


def check_replies(did):
    """No reply goes out while a write to the log isn't synced."""
    synced = True
    for word in did:
        if word[0] == "pwrite64":
            synced = False
        elif word[0] == "fsync" and word[1] == "log":
            synced = True
        assert synced or word[1] != "output", "a reply before the sync"


def check_making(did):
    """A log that is made: its name is durable before its gate is opened."""
    gate = max(n for n, word in enumerate(did) if word == ("pwrite64", "log", 1, 0))
    assert ("fsync", ".") in did[:gate], "the folder isn't synced before the gate"


def check_fault(call, word):
    """The first such call on the log fails: that is a fault of the site, which names the call, and nothing is sent."""
    line = ["strace", "-f", "-o", "/dev/null", "-P", f"{folder}/log", "-e", f"inject={call}:error=EIO:when=1"]
    ran = subprocess.run(line + [program, "run", folder], capture_output=True)
    assert ran.returncode == SITE_FAULT and ran.stdout == b"", f"{call} that fails: {ran}"
    wanted = f"{folder}/log: {word}: "
    assert wanted in ran.stderr.decode(), f"{call} that fails: {ran.stderr}"


def log_bytes():
    with open(os.path.join(folder, "log"), "rb") as log:
        return log.read()


with open(f"{folder}/messages.txt", "w", encoding="ascii") as messages:
    messages.writelines(f"T{n} DEPOSIT A001 1\n" for n in range(MESSAGES))
made, _ = trace("define")
did = Watch(made).did
assert index(did, ("flock", ".", True)) == 0 or ("pwrite64", "log") not in [word[:2] for word in did[:1]]
check_making(did)
assert check_groups(did) == 1, "more than one write of a front"
stood = log_bytes()
again, _ = trace("define")
check_opening(Watch(again).did, len(stood))
assert log_bytes() == stood, "a log that stood was changed"
for call, word in (("pread64", "rewrite"), ("pwrite64", "rewrite"), ("fsync", "sync")):
    check_fault(call, word)
    assert log_bytes() == stood, "a log that stood was changed"
for _ in range(2):
    length = len(log_bytes())
    served, sent = trace("run")
    assert sent.count(b"\n") == MESSAGES, "a reply is missing"
    check_replies(Watch(served).did)
    did = check_opening(Watch(served).did, length)
    groups = check_groups(did)
    reads = sum(word[0] == "pread64" for word in did)
    print(f"call-order: {groups} groups written, {reads} reads of the log: in order")
