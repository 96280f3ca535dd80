#!/usr/bin/env python3
"""run.py PROGRAM [--write] [--reps N] [--quick] [--work DIR]

Measures the built program beside plain Rust of the same bytes and syncs, SQLite, LMDB, and an interpreter of the
language in plain Rust, on this machine and in this run, and prints the tables of docs/BENCHMARKS.md. With --write it
puts them there between their two marks, and draws docs/benchmarks.svg. It needs rustc, gcc, the headers of libsqlite3
and liblmdb, and /usr/bin/time. The programs that are compared run in turn, N times; each figure is the best of them.

The replies of all are compared, and the log with those of the plain program and of the interpreter, byte for byte.
"""
import argparse
import datetime
import os
import shutil
import subprocess
import sys
import tempfile
import time

from loads import Load, emptied

HERE = os.path.dirname(os.path.abspath(__file__))
BOOK, PLOT = f"{HERE}/../docs/BENCHMARKS.md", f"{HERE}/../docs/benchmarks.svg"
MARKS = "<!-- figures, by bench/run.py --write -->", "<!-- end of figures -->"
NAMES = "program", "plain Rust", "SQLite", "LMDB", "interpreting in plain Rust"
# Of those that the plot has.
COLOURS = "#30638e", "#9aa5b1", "#d1a25b", "#7a9e7e"
GROUPS = 1, 100, 1_000
PEERS = "plain", "sqlite_peer", "lmdb_peer", "interpreter"
# Those that write the program's log bytes.
LOGGING = "plain", "interpreter"


class Cost:
    """What a command cost: seconds, processor seconds, bytes of memory at most."""

    def __init__(self, command, out):
        began = time.perf_counter()
        # A child of this process would be told to have had this one's memory: so a small one starts it.
        timed = ["/usr/bin/time", "-f", "%M", "-o", f"{out}.memory", *command]
        with open(out, "wb") as file, subprocess.Popen(timed, stdout=file) as started:
            _, status, used = os.wait4(started.pid, 0)
            started.returncode = os.waitstatus_to_exitcode(status)
        self.seconds = time.perf_counter() - began
        with open(f"{out}.memory", encoding="ascii") as file:
            self.memory = int(file.read().split()[-1]) * 1024
        self.processor = used.ru_utime + used.ru_stime
        if started.returncode:
            sys.exit(f"{' '.join(command)}: status {started.returncode}")


class Best:
    """The least that several runs cost."""

    def __init__(self, costs):
        self.seconds = min(cost.seconds for cost in costs)
        self.processor = min(cost.processor for cost in costs)
        self.memory = min(cost.memory for cost in costs)

    def behind(self, start, count):
        """Messages a second and processor µs a message, beyond a start."""
        seconds = max(self.seconds - start.seconds, 1e-3)
        return count / seconds, max(self.processor - start.processor, 0) / count * 1e6


class Bench:
    """Folders of loads, and the programs over them."""

    def __init__(self, words):
        self.program, self.reps, self.quick = os.path.abspath(words.program), words.reps, words.quick
        self.room = tempfile.mkdtemp(dir=words.work)
        self.serial = 0
        for name in LOGGING:
            source = f"{HERE}/src/{name}.rs"
            subprocess.run(["rustc", "--edition", "2021", "-O", "-o", f"{self.room}/{name}", source], check=True)
        for name, library in ("sqlite_peer", "-lsqlite3"), ("lmdb_peer", "-llmdb"):
            subprocess.run(["gcc", "-O2", "-o", f"{self.room}/{name}", f"{HERE}/src/{name}.c", library], check=True)

    def size(self, count):
        return count // 20 if self.quick else count

    def folder(self, load):
        """A new folder of a load, with the messages of its first run."""
        self.serial += 1
        folder = f"{self.room}/{self.serial}"
        load.define(folder)
        load.next_run(folder)
        subprocess.run([self.program, "define", folder], check=True)
        shutil.copy(f"{folder}/log", f"{folder}/front")
        return folder

    def run(self, folder):
        """The program over the folder, from the log that stood there before."""
        shutil.copy(f"{folder}/front", f"{folder}/log")
        return Cost([self.program, "run", folder], f"{folder}/replies")

    def peer(self, name, folder, group):
        """A peer over the folder, in a database that it makes."""
        for file in os.listdir(folder):
            if file.startswith("peer"):
                os.remove(f"{folder}/{file}")
        words = [f"{self.room}/{name}", folder, str(group), f"{folder}/peer", f"{folder}/peer_replies"]
        return Cost(words, f"{folder}/peer_out")

    def best(self, *makes):
        """The best of each, run in turn."""
        costs = [[make() for make in makes] for _ in range(self.reps)]
        return [Best(column) for column in zip(*costs)]

    def idle(self, folder, *parts):
        """What a run costs in which these parts are empty, by the log as it is."""
        copy = emptied(folder, parts)
        shutil.copy(f"{copy}/log", f"{copy}/front")
        found, = self.best(lambda: self.run(copy))
        shutil.rmtree(copy)
        return found

    def start(self, folder):
        """What a run costs that has nothing to do."""
        return self.idle(folder, "messages.txt", "schedule.txt")

    def peer_starts(self, folder, group):
        """What the peers cost that have nothing to do but to load the accounts."""
        copy = emptied(folder, ["messages.txt"])
        found = self.best(*(lambda name=name: self.peer(name, copy, group) for name in PEERS))
        shutil.rmtree(copy)
        return found

    def beyond(self, folder, cost):
        """Memory beyond databases, schedule and what a start needs."""
        return max(cost.memory - self.idle(folder, "messages.txt").memory, 0)

    def sync_time(self):
        """Seconds of a write of one byte and its sync, in the middle of some hundred."""
        with open(f"{self.room}/probe", "wb") as file:
            times = []
            for _ in range(200):
                began = time.perf_counter()
                os.pwrite(file.fileno(), b"x", 0)
                os.fsync(file.fileno())
                times.append(time.perf_counter() - began)
        return sorted(times)[100]


def same(one, two, what):
    with open(one, "rb") as first, open(two, "rb") as second:
        if first.read() != second.read():
            sys.exit(f"{what}: {one} and {two} aren't the same")


def row(*cells):
    return "| " + " | ".join(str(cell) for cell in cells) + " |"


def heads(*cells):
    return [row(*cells), row(*["---"] * len(cells))]


def compared(bench, folder, name, group):
    """A peer over the folder, once its replies are known to be the program's."""
    cost = bench.peer(name, folder, group)
    same(f"{folder}/replies", f"{folder}/peer_replies", name)
    if name in LOGGING:
        same(f"{folder}/log", f"{folder}/peer", "the log")
    return cost


def reopened(bench, folder, group):
    """What it costs each to go on over what its run of the folder left."""
    costs = [bench.start(folder)]
    for name in PEERS:
        bench.peer(name, folder, group)
        words = ["--read", f"{folder}/peer"] if name == "plain" else ["--open", f"{folder}/peer"]
        costs += bench.best(lambda: Cost([f"{bench.room}/{name}", *words], f"{folder}/peer_out"))
    return costs


def beside(bench):
    """The tables beside the others: rates, processor times, peak memory, and a start over what was left; and the rates
    and processor times of each group."""
    lines = heads("`log_group`", *NAMES, *(f"to {name}" for name in NAMES[1:]))
    times = heads("`log_group`", *(f"{name}, µs" for name in NAMES), "to plain Rust", "interpreting to plain Rust")
    sizes = heads("`log_group`", *(f"{name}, MB" for name in NAMES), "to plain Rust")
    again = heads("`log_group`", "messages", *(f"{name}, ms" for name in NAMES), "to plain Rust")
    points = []
    for group in GROUPS:
        load = Load(bench.size(200_000 if group > 1 else 10_000), group=group)
        folder = bench.folder(load)
        starts = [bench.start(folder), *bench.peer_starts(folder, group)]
        makes = [lambda name=name: compared(bench, folder, name, group) for name in PEERS]
        found = bench.best(lambda: bench.run(folder), *makes)
        rates, costs = zip(*(cost.behind(start, load.count) for cost, start in zip(found, starts)))
        lines.append(row(group, *(f"{r:,.0f}" for r in rates), *(f"{rates[0] / r:.2f}" for r in rates[1:])))
        to_plain = [f"{cost / max(costs[1], 1e-3):.2f}" for cost in (costs[0], costs[-1])]
        times.append(row(group, *(f"{c:.2f}" for c in costs), *to_plain))
        memory = [cost.memory / 1e6 for cost in found]
        sizes.append(row(group, *(f"{m:.1f}" for m in memory), f"{memory[0] / memory[1]:.2f}"))
        shutil.copy(f"{folder}/log", f"{folder}/front")
        open_times = [cost.seconds * 1e3 for cost in reopened(bench, folder, group)]
        again.append(row(group, f"{load.count:,}", *(f"{t:.1f}" for t in open_times),
                         f"{open_times[0] / open_times[1]:.2f}"))
        points.append((group, rates, costs))
        shutil.rmtree(folder)
    return (lines, times, sizes, again), points


def loads(bench):
    """The loads of the program alone."""
    size = bench.size
    return [Load(size(10_000)), Load(size(200_000)), Load(size(10_000), group=1), Load(size(200_000), group=100),
            Load(size(200_000), accounts=10), Load(size(200_000), accounts=1_000), Load(size(200_000), accounts=40_000),
            Load(size(200_000), share=0), Load(size(200_000), share=0.5),
            Load(size(200_000), group=100, regions=4), Load(size(200_000), group=100, regions=16),
            Load(size(200_000), group=100, regions=64), Load(size(150_000), group=100, regions=64, share=0.5),
            Load(size(200_000), numbered=True), Load(size(200_000), terminals=100_000, numbered=True)]


def alone(bench):
    """The table of the program alone, a row a load; and the figures of each."""
    lines = heads("messages", "accounts", "hot", "regions", "waits", "`log_group`", "numbered", "a second",
                  "processor, µs", "memory, MB", "beyond, MB")
    found = []
    for load in loads(bench):
        folder = bench.folder(load)
        start = bench.start(folder)
        cost, = bench.best(lambda: bench.run(folder))
        rate, time_each = cost.behind(start, load.count)
        beyond = bench.beyond(folder, cost)
        numbered = f"yes, {load.terminals:,} terminals" if load.numbered else "no"
        lines.append(row(f"{load.count:,}", f"{load.accounts:,}", f"{load.share:.0%}", load.regions, f"{load.waits:,}",
                         load.group, numbered, f"{rate:,.0f}", f"{time_each:.2f}", f"{cost.memory / 1e6:.0f}",
                         f"{beyond / 1e6:.1f}"))
        found.append((load, time_each, beyond))
        shutil.rmtree(folder)
    return lines, found


def restarted(bench, folder, count):
    """A run with nothing to do over a log, beside reading and parsing it in plain Rust: words, and their ratio."""
    read = [f"{bench.room}/plain", "--read", f"{folder}/log"]
    copy = emptied(folder, ["messages.txt", "schedule.txt"])
    shutil.copy(f"{copy}/log", f"{copy}/front")
    ours, plain = bench.best(lambda: bench.run(copy), lambda: Cost(read, f"{folder}/out"))
    shutil.rmtree(copy)
    ratio = ours.seconds / plain.seconds
    size = os.path.getsize(f"{folder}/log") / 1e6
    return row(f"{count:,}", f"{size:.0f}", f"{ours.seconds:.2f}", f"{plain.seconds:.2f}", f"{ratio:.2f}",
               f"{ours.memory / 1e6:.0f}"), ratio


def five(bench):
    """Five runs one after another over one folder, and restarts over what they left."""
    lines = heads("run", "messages", "start, s", "a second", "processor, µs", "memory, MB")
    starts = heads("entries", "log, MB", "restart, s", "plain Rust, s", "times", "memory, MB")
    load = Load(bench.size(200_000))
    folder = bench.folder(load)
    for number in range(1, 6):
        if number > 1:
            load.next_run(folder)
        start = bench.start(folder)
        cost, = bench.best(lambda: bench.run(folder))
        rate, time_each = cost.behind(start, load.count)
        shutil.copy(f"{folder}/log", f"{folder}/front")
        lines.append(row(number, f"{load.count:,}", f"{start.seconds:.2f}", f"{rate:,.0f}", f"{time_each:.2f}",
                         f"{cost.memory / 1e6:.0f}"))
        if number in (1, 5):
            line, ratio = restarted(bench, folder, number * load.count)
            starts.append(line)
    shutil.rmtree(folder)
    return lines, starts, ratio


def goals(points, found, ratio):
    """What was aimed at, and what is here."""
    by_group = {group: (rates, costs) for group, rates, costs in points}
    each = {(load.count, load.accounts, load.share, load.regions, load.group, load.numbered): time_each
            for load, time_each, _ in found}
    few, many = (next(t for load, t, _ in found if load.accounts == n) for n in (10, 40_000))
    most = max(load.count for load, _, _ in found)
    small = min(load.count for load, _, _ in found)
    plain = (small, 10_000, 0.1, 1, 1_000, False), (most, 10_000, 0.1, 1, 1_000, False)
    rates, costs = by_group[1_000]
    lines = heads("Goal", "Here")
    lines.append(row("outside the syncs within 1.25 times plain Rust", f"{costs[0] / max(costs[1], 1e-3):.1f} times at 1,000"))
    for place, name in (2, "SQLite"), (3, "LMDB"):
        ahead = ", ".join(f"{by_group[g][0][0] / by_group[g][0][place]:.2f}" for g in GROUPS[1:])
        lines.append(row(f"ahead of {name} at 100 and 1,000", ahead))
    lines.append(row("0.9 of plain Rust at 1", f"{by_group[1][0][0] / by_group[1][0][1]:.2f}"))
    lines.append(row(f"a message costs the same at {small:,} and {most:,}",
                     f"{each[plain[0]]:.2f} and {each[plain[1]]:.2f} µs"))
    lines.append(row("a message costs the same over 10 accounts and 40,000", f"{few:.2f} and {many:.2f} µs"))
    lines.append(row("a restart within 1.5 times reading and parsing in plain Rust", f"{ratio:.2f} times"))
    lines.append(row("64 MB beyond databases, schedule and start", f"{max(b for _, _, b in found) / 1e6:.1f} MB"))
    return lines


def plot(points):
    """For each size of a group a panel of bars, each panel to its own scale."""
    out = ['<svg xmlns="http://www.w3.org/2000/svg" width="680" height="300" font-family="sans-serif" font-size="11">',
           '<rect width="680" height="300" fill="white"/>', '<text x="20" y="22">messages a second</text>']
    for place, (name, colour) in enumerate(zip(NAMES, COLOURS)):
        out.append(f'<rect x="{200 + 110 * place}" y="12" width="12" height="12" fill="{colour}"/>')
        out.append(f'<text x="{217 + 110 * place}" y="22">{name}</text>')
    for column, (group, rates, _) in enumerate(points):
        for place, (rate, colour) in enumerate(zip(rates, COLOURS)):
            height, x = 200 * rate / max(rates), 30 + 220 * column + 48 * place
            size = f'width="42" height="{height:.0f}"'
            out.append(f'<rect x="{x}" y="{260 - height:.0f}" {size} fill="{colour}"/>')
            out.append(f'<text x="{x + 21}" y="{255 - height:.0f}" text-anchor="middle">{rate / 1000:,.0f}k</text>')
        out.append(f'<text x="{126 + 220 * column}" y="280" text-anchor="middle">log_group = {group}</text>')
    return "\n".join(out + ["</svg>"]) + "\n"


def machine():
    with open("/proc/cpuinfo", encoding="ascii") as file:
        names = [line.split(":", 1)[1].strip() for line in file if line.startswith("model name")]
    return f"{len(names)} processors, {names[0]}"


def page(bench):
    """The tables with a line of words before each, and the plot."""
    began = time.perf_counter()
    text = [f"By `bench/run.py` on {datetime.date.today():%-d %B %Y}; {machine()}. Each figure is the best of "
            f"{bench.reps} runs, in turn with the others.", "",
            f"A write of one byte and its sync takes {bench.sync_time() * 1e6:.0f} µs here."]
    (lines, times, sizes, again), points = beside(bench)
    text += ["", "### Beside others: messages a second", "", *lines, "", "![messages a second](benchmarks.svg)"]
    text += ["", "### Beside others: processor time a message", "", *times]
    text += ["", "### Beside others: peak memory", "", *sizes]
    text += ["", "### Beside others: a start over what the run left", "", *again]
    lines, found = alone(bench)
    text += ["", "### The program alone", "", *lines]
    lines, starts, ratio = five(bench)
    text += ["", "### Five runs one after another", "", *lines, "", "### Restarts", "", *starts]
    text += ["", "### Goals", "", *goals(points, found, ratio)]
    text += ["", f"All of it took {(time.perf_counter() - began) / 60:.0f} minutes."]
    return text, plot(points)


def write(text, svg):
    with open(BOOK, encoding="utf-8") as file:
        before, rest = file.read().split(MARKS[0])
    behind = rest.split(MARKS[1])[1]
    with open(BOOK, "w", encoding="utf-8") as file:
        file.write(before + MARKS[0] + "\n" + "\n".join(text) + "\n" + MARKS[1] + behind)
    with open(PLOT, "w", encoding="utf-8") as file:
        file.write(svg)


def main():
    words = argparse.ArgumentParser(description=__doc__, formatter_class=argparse.RawDescriptionHelpFormatter)
    words.add_argument("program")
    words.add_argument("--write", action="store_true", help="puts the tables into docs/BENCHMARKS.md and draws the plot")
    words.add_argument("--reps", type=int, default=3)
    words.add_argument("--quick", action="store_true", help="a twentieth of the messages")
    words.add_argument("--work", help="where the folders of the loads are made")
    words = words.parse_args()
    if words.write and words.quick:
        sys.exit("--write is of a whole run, and not of a quick one")
    bench = Bench(words)
    text, svg = page(bench)
    shutil.rmtree(bench.room)
    print("\n".join(text))
    if words.write:
        write(text, svg)


if __name__ == "__main__":
    main()
