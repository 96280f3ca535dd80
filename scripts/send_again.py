"""Kills `PROGRAM run FOLDER` at random moments and sends the same numbered messages again, until all are answered:
TIMES times. Each deposit of 1 must count once, whatever was killed and however often it was sent."""
import os
import random
import subprocess
import sys
import time

program, folder, times = sys.argv[1], sys.argv[2], int(sys.argv[3])
if os.path.exists(f"{folder}/log"):
    sys.exit(f"{folder} has a log, which this would define anew")
TERMINALS = 200


def run(seconds):
    """Runs the program, and kills it after so many seconds. The lines that came out, and whether it ended by itself."""
    with subprocess.Popen([program, "run", folder], stdout=subprocess.PIPE) as started:
        try:
            started.wait(seconds)
        except subprocess.TimeoutExpired:
            started.kill()
        lines = started.stdout.read().splitlines(keepends=True)
    assert started.returncode <= 0, f"status {started.returncode}"
    return [line for line in lines if line.endswith(b"\n")], started.returncode == 0


def balance():
    shown = subprocess.run([program, "show", folder], stdout=subprocess.PIPE, check=True).stdout.decode()
    return int(shown.split("ACCT=A001 BAL=")[1].split()[0])


subprocess.run([program, "define", folder], check=True)
begun, whole, kills = balance(), 0.2, 0
for number in range(1, times + 1):
    with open(f"{folder}/messages.txt", "w", encoding="ascii") as messages:
        messages.writelines(f"T{t} {number} DEPOSIT A001 1\n" for t in range(TERMINALS))
    ended = False
    while not ended:
        began = time.monotonic()
        lines, ended = run(random.uniform(0, 1.5 * whole))
        if ended:
            whole = time.monotonic() - began
        kills += not ended
        for line in lines:
            assert line.split(b" ", 1)[1] == b"OK NEW\n", line
    assert len(lines) == TERMINALS, f"{len(lines)} lines"
    assert balance() == begun + TERMINALS * number, f"{balance()} after {number} rounds"
print(f"send-again: {times} rounds of {TERMINALS} deposits, {kills} killed: each counts once")
