"""Runs PROGRAM over folders that it must refuse, and compares what it says and its status with what it should."""
import fcntl
import os
import shutil
import subprocess
import sys

program, sample, room = sys.argv[1:4]
OLD = f"{os.path.dirname(os.path.abspath(__file__))}/../sample/format1"
NOBODY = 65534
# The commands that look at a log that stands.
ON_A_LOG = ("run", "show", "log", "migrate", "audit")


def run(command, folder, as_nobody=False):
    def become():
        os.setgroups([])
        os.setgid(NOBODY)
        os.setuid(NOBODY)
    ended = subprocess.run([program, command, folder], capture_output=True, check=False,
                           preexec_fn=become if as_nobody else None)
    return ended.returncode, ended.stdout, ended.stderr.decode()


def made(name):
    """A folder with the sample's parts and a log with its ten messages."""
    folder = f"{room}/{name}"
    os.mkdir(folder)
    for part in ("defs.toml", "scripts.txt", "schedule.txt", "messages.txt"):
        shutil.copy(f"{sample}/{part}", folder)
    for command in ("define", "run"):
        status, _, said = run(command, folder)
        assert (status, said) == (0, ""), (command, status, said)
    return folder


def log_of(folder):
    with open(f"{folder}/log", "rb") as file:
        return file.read()


def with_log(folder, log):
    with open(f"{folder}/log", "wb") as file:
        file.write(log)


def front_length(folder):
    return 17 + sum(os.path.getsize(f"{folder}/{part}") for part in ("defs.toml", "scripts.txt"))


def refused(folder, status, said, commands=ON_A_LOG, as_nobody=False):
    """Each of these commands ends so, sends nothing, and leaves the log as it was."""
    before = log_of(folder) if os.path.isfile(f"{folder}/log") else None
    for command in commands:
        found = run(command, folder, as_nobody)
        assert (found[0], found[2]) == (status, said), f"{command} {folder}: {found}"
        if command != "log" or status != 8:
            assert found[1] == b"", f"{command} {folder} sent {found[1][:40]}"
        after = log_of(folder) if os.path.isfile(f"{folder}/log") else None
        assert after == before, f"{command} {folder} changed the log"
    print(f"folders: {os.path.basename(folder)}: status {status}, {said.strip().splitlines()[-1]}")


folder = f"{room}/absent"
refused(folder, 5, f"read fault\n{folder}/defs.toml: open: No such file or directory (os error 2)\n",
        ("define", *ON_A_LOG))

folder = made("no_log")
os.remove(f"{folder}/log")
refused(folder, 7, "foreign log\n")

folder = made("other_scripts")
with open(f"{folder}/scripts.txt", "a", encoding="ascii") as file:
    file.write("TRAN MORE\nREPLY ''\n")
refused(folder, 7, "foreign log\n")

folder = made("no_schedule")
os.remove(f"{folder}/schedule.txt")
refused(folder, 5, f"read fault\n{folder}/schedule.txt: open: No such file or directory (os error 2)\n", ("run",))

folder = made("damaged")
log, gate = log_of(folder), front_length(folder)
with_log(folder, log[:gate + 8] + bytes([log[gate + 8] ^ 1]) + log[gate + 9:])
refused(folder, 8, f"damaged: data set 0 at {gate}\n")

folder = made("cut_off")
length = int.from_bytes(log[gate + 1:gate + 9], "big")
with_log(folder, log[:gate + 9 + length // 2])
refused(folder, 8, f"damaged: data set 0 at {gate}\n")

folder = made("illegal")
front = front_length(folder)
with_log(folder, log[:front] + log[front:].replace(b"NEW", b"OLD", 1))
refused(folder, 13, "illegal entry 0\n", ("audit",))

folder = f"{room}/old_format"
shutil.copytree(OLD, folder)
refused(folder, 12, "old format\n", ("run",))

folder = made("locked")
handle = os.open(folder, os.O_RDONLY)
fcntl.flock(handle, fcntl.LOCK_EX)
refused(folder, 6, f"site fault\n{folder}: lock: another program uses this folder\n", ("define", *ON_A_LOG))
os.close(handle)

folder = made("no_file")
os.remove(f"{folder}/log")
os.mkdir(f"{folder}/log")
for command in ("define", *ON_A_LOG):
    status, sent, said = run(command, folder)
    assert (status, sent, said.splitlines()[0]) == (6, b"", "site fault"), (status, sent, said)
print(f"folders: no_file: status 6, {said.strip().splitlines()[-1]}")

if os.getuid() == 0:
    folder = made("unwritable")
    for name in os.listdir(folder):
        os.chmod(f"{folder}/{name}", 0o444)
    os.chmod(room, 0o755)
    os.chmod(folder, 0o555)
    refused(folder, 6, f"site fault\n{folder}/log: open: Permission denied (os error 13)\n",
            ("define", "run", "migrate"), True)
    status, sent, said = run("show", folder, True)
    assert (status, said) == (0, "") and sent.startswith(b"msdb "), (status, said)
    print("folders: unwritable: `show` serves it")
else:
    print("folders: unwritable: skipped: only root can become nobody")
