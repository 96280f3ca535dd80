#!/usr/bin/env python3
"""Writes the cases of crates/core_storm/data, by rules of its own, and what its program must print.

    scripts/storm.py           writes the files
    scripts/storm.py --check   tells whether they are what it would write
    scripts/storm.py --count   tells what the events of all cases do, and how their transactions end

It reads nothing that the product wrote. docs/FORMATS.md and docs/MODEL.md have the rules in words; here they are
written down once more, in another language: a run of the table of turns by whole lists.
"""
import sys
from pathlib import Path

sys.dont_write_bytecode = True
sys.path.insert(0, str(Path(__file__).resolve().parent))

from storm_of import cases

CRATE = Path(__file__).resolve().parent.parent / "crates" / "core_storm"


def main():
    if sys.argv[1:] not in [[], ["--check"], ["--count"]]:
        print("usage: storm.py [--check | --count]")
        return 2
    lines, found = cases.written()
    events = sum(len(case.events) for case in found)
    if sys.argv[1:] == ["--count"]:
        print(f"{len(found)} cases, {events} events")
        for word, count in cases.counted(found).items():
            print(f"{count:6} {word}")
        return 0
    differ = 0
    texts = {
        CRATE / "data" / "storm.txt": "".join(f"{line}\n" for line in lines),
        CRATE / "stdout": f"storm.txt: {len(found)} cases, {events} events, 0 differ\n",
    }
    for path, text in texts.items():
        if not sys.argv[1:]:
            path.write_text(text)
        elif not path.exists() or path.read_text() != text:
            print(f"{path.name} isn't what this program writes")
            differ = 1
    return differ


if __name__ == "__main__":
    sys.exit(main())
