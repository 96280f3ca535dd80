"""Kills `PROGRAM run FOLDER` at random moments, TIMES times, and compares what came out with the log."""
import os
import random
import subprocess
import sys
import time

from log_text import replies

program, folder, times = sys.argv[1], sys.argv[2], int(sys.argv[3])
if os.path.exists(f"{folder}/log"):
    sys.exit(f"{folder} has a log, which this would define anew")
MESSAGES = 300


def logged():
    with open(f"{folder}/log", "rb") as log:
        return replies(log.read())


def run(seconds):
    """Runs the program, and kills it after so many seconds. What came out, and its status: None where it was killed."""
    with subprocess.Popen([program, "run", folder], stdout=subprocess.PIPE) as started:
        try:
            started.wait(seconds)
        except subprocess.TimeoutExpired:
            started.kill()
        sent = started.stdout.read()
    return sent, None if started.returncode < 0 else started.returncode


def check(before, seconds):
    """One run: the old entries stand, and what came out is a front of the replies of the new ones."""
    sent, status = run(seconds)
    after = logged()
    assert after[:len(before)] == before, "an entry is gone"
    new = b"".join(after[len(before):])
    assert new.startswith(sent), f"sent and not in the log: {sent[-40:]}"
    assert status in (None, 0), f"status {status}"
    assert status is None or sent == new, "an entry whose reply didn't come"
    return after, status is None, sent.count(b"\n")


with open(f"{folder}/messages.txt", "w", encoding="ascii") as messages:
    messages.writelines(f"T{n} DEPOSIT A001 1\n" for n in range(MESSAGES))
subprocess.run([program, "define", folder], check=True)
began = time.monotonic()
before, _, sent = check([], None)
whole = time.monotonic() - began
assert sent == MESSAGES, f"{sent} replies"
kills = replies_read = 0
for _ in range(times):
    before, killed, sent = check(before, random.uniform(0, whole))
    kills += killed
    replies_read += sent
before, _, sent = check(before, None)
assert sent == MESSAGES, f"{sent} replies"
print(f"kill-test: {times} runs, {kills} killed, {replies_read} replies read before, {len(before)} entries: all there")
