#!/usr/bin/env python3
"""Writes a log of GROUPS groups of COUNT deposits each into FOLDER, with the definitions and scripts that lie there.

    scripts/restart_log.py FOLDER [GROUPS [COUNT]]

FOLDER has the definitions and the scripts of crates/ims_fp/data. Each entry adds 1 to account A001, as the program
would write it, so that a `run` over the log restarts from it; that one reads a schedule and messages too, and both
may be empty files. docs/FORMATS.md has the bytes.
"""
import sys
from pathlib import Path


def sized(text, count):
    """A text behind its length, which has so many bytes."""
    return len(text).to_bytes(count, "big") + text


def packed(number):
    """Four bytes of packed decimal: seven digits and the sign plus."""
    return bytes.fromhex(f"{number % 10**7:07d}c")


def entry(place):
    """The deposit that is entry number `place`, counted from 0."""
    key = b"A001"
    segment = b"\1\0" + sized(key, 1) + sized(key + packed(101 + place), 2)
    body = place.to_bytes(8, "big") + b"\0" + sized(b"T1 DEPOSIT A001 1", 2) + sized(b"NEW", 2)
    body += (1).to_bytes(4, "big") + place.to_bytes(8, "big") + (1).to_bytes(4, "big") + segment
    return sized(body, 8)


def main():
    if not 2 <= len(sys.argv) <= 4:
        sys.exit(__doc__)
    folder = Path(sys.argv[1])
    groups, count = (int(word) for word in (sys.argv[2:] + ["1000", "1000"][len(sys.argv) - 2:]))
    if (folder / "log").exists():
        sys.exit(f"restart_log: {folder}/log is there already, and would be lost: move it away")
    with open(folder / "log", "wb") as log:
        parts = [(folder / name).read_bytes() for name in ("defs.toml", "scripts.txt")]
        log.write(b"\1IMSFPLG2" + b"".join(sized(part, 4) for part in parts))
        for group in range(groups):
            log.write(b"\1" + sized(b"".join(entry(group * count + place) for place in range(count)), 8))
        log.write(b"\0")


main()
