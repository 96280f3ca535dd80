"""Starts `PROGRAM run FOLDER` beside another `run` or a `define` of that folder, TIMES times, and reads the log."""
import os
import random
import subprocess
import sys
import time

from log_text import replies

program, folder, times = sys.argv[1], sys.argv[2], int(sys.argv[3])
if os.path.exists(f"{folder}/log"):
    sys.exit(f"{folder} has a log, which this would define anew")
MESSAGES = 100
REFUSED = f"site fault\n{folder}: lock: another program uses this folder\n".encode()


def define():
    subprocess.run([program, "define", folder], check=True)


def start(command):
    return subprocess.Popen([program, command, folder], stdout=subprocess.PIPE, stderr=subprocess.PIPE)


def ended(started):
    """What it sent, and whether it was refused. Any other end but a good one is a fault of this test."""
    sent, said = started.communicate()
    if started.returncode == 6:
        assert (sent, said) == (b"", REFUSED), f"refused with {sent[-40:]} and {said}"
        return b"", True
    assert (started.returncode, said) == (0, b""), f"status {started.returncode}: {said}"
    return sent, False


def logged():
    with open(f"{folder}/log", "rb") as log:
        return b"".join(replies(log.read()))


def two_runs():
    """Two runs at once: the log has the lines of those that weren't refused, one run's behind the other's."""
    define()
    started = [start("run"), start("run")]
    (one, one_refused), (two, two_refused) = map(ended, started)
    assert not (one_refused and two_refused), "each refused the other"
    assert logged() in (one + two, two + one), "the log isn't what came out"
    return one_refused or two_refused


def define_beside(pause):
    """A definition beside a run: the run's lines are in the log, unless the definition came behind all of it."""
    define()
    run = start("run")
    time.sleep(pause)
    other = start("define")
    (sent, run_refused), (_, define_refused) = ended(run), ended(other)
    assert not (run_refused and define_refused), "each refused the other"
    log = logged()
    if define_refused or log:
        assert log == sent, "the log isn't what came out"
    return run_refused or define_refused


with open(f"{folder}/messages.txt", "w", encoding="ascii") as messages:
    messages.writelines(f"T{n} DEPOSIT A001 1\n" for n in range(MESSAGES))
define()
began = time.monotonic()
assert ended(start("run"))[0].count(b"\n") == MESSAGES
whole = time.monotonic() - began
refused = sum(two_runs() + define_beside(random.uniform(0, whole)) for _ in range(times))
print(f"two-programs: {2 * times} pairs, {refused} times one was refused: nothing that came out is missing")
