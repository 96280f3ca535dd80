"""Tries PROGRAM's folders as an operator keeps them. `copies`: a copy of a folder that is put back, and a folder that is
moved, go on as the folder did. `full`: on the disk mounted at ROOM/disk, which gets full in the middle of a run, what came
out is in the log, and with room again the same numbered messages are answered, each deposit once."""
import os
import shutil
import subprocess
import sys

from log_text import replies

what, program, parts, room = sys.argv[1:5]
BEGUN = 100


def made(folder):
    """A folder with the sample's parts, defined, with an empty schedule."""
    os.mkdir(folder)
    for part in ("defs.toml", "scripts.txt"):
        shutil.copy(f"{parts}/{part}", folder)
    with open(f"{folder}/schedule.txt", "w", encoding="ascii"):
        pass
    subprocess.run([program, "define", folder], check=True)
    return folder


def run(folder, lines):
    """What a run over these message lines sends, its status, and what it says."""
    with open(f"{folder}/messages.txt", "w", encoding="ascii") as messages:
        messages.writelines(f"{line}\n" for line in lines)
    ended = subprocess.run([program, "run", folder], capture_output=True, check=False)
    return ended.stdout, ended.returncode, ended.stderr.decode()


def shown(folder):
    return subprocess.run([program, "show", folder], capture_output=True, check=True).stdout


def balance(folder):
    return int(shown(folder).decode().split("ACCT=A001 BAL=")[1].split()[0])


def deposits(number):
    return [f"T{terminal} {number} DEPOSIT A001 1" for terminal in range(20)]


def answered(folder, lines):
    """All of these lines are answered: new, or as they were."""
    sent, status, said = run(folder, lines)
    assert (status, said) == (0, ""), (status, said)
    assert sent == b"".join(b"%s OK NEW\n" % line.split()[0].encode() for line in lines), sent


def copies():
    folder, copy = made(f"{room}/bank"), f"{room}/copy"
    answered(folder, deposits(1))
    shutil.copytree(folder, copy)
    as_copied = shown(folder)
    answered(folder, deposits(2))
    assert balance(folder) == BEGUN + 40

    # The copy is put back: what was answered since is gone, and may be sent again.
    shutil.rmtree(folder)
    shutil.copytree(copy, folder)
    assert shown(folder) == as_copied
    answered(folder, deposits(2))
    assert balance(folder) == BEGUN + 40
    print("keep-test: a copy that was put back shows what it showed, and goes on")

    # The log and the two texts that it was made with are enough.
    small = f"{room}/small"
    os.mkdir(small)
    for name in ("log", "defs.toml", "scripts.txt"):
        shutil.copy(f"{copy}/{name}", small)
    assert shown(small) == as_copied
    print("keep-test: of a copy the log, the definitions and the scripts are enough")

    # Elsewhere it is the same folder: numbers that were used count no second time.
    moved = f"{room}/moved"
    os.rename(folder, moved)
    answered(moved, deposits(2))
    answered(moved, deposits(3))
    assert balance(moved) == BEGUN + 60
    print("keep-test: a folder that was moved goes on, and each number counts once")


def full():
    folder = made(f"{room}/disk/bank")
    number, sent, status, said = 0, b"", 0, ""
    while status == 0:
        assert number < 10_000, "the disk doesn't get full"
        number += 1
        sent, status, said = run(folder, deposits(number))
    lines = said.splitlines()
    assert (status, lines[0]) == (6, "site fault") and "No space left on device" in lines[1], (status, said)
    with open(f"{folder}/log", "rb") as log:
        logged = replies(log.read())
    before = 20 * (number - 1)
    assert b"".join(logged[before:]).startswith(sent), "sent and not in the log"

    # There is room again, on another disk.
    roomy = f"{room}/roomy"
    shutil.copytree(folder, roomy)
    assert balance(roomy) == BEGUN + len(logged), "the databases aren't those of the log"
    answered(roomy, deposits(number))
    assert balance(roomy) == BEGUN + 20 * number
    print(f"keep-test: a disk that was full in run {number}: `{lines[1].split(': ', 1)[1]}`; "
          f"{sent.count(bytes([10]))} of its lines came out, {len(logged) - before} stand in the log, "
          "and sent again each counts once")


{"copies": copies, "full": full}[what]()
