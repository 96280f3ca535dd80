#!/usr/bin/env python3
"""Writes the cases of crates/fp_vectors/data, by rules of its own, and what its program must print.

    scripts/vectors.py           writes the files
    scripts/vectors.py --check   tells whether they are what it would write

It reads nothing that the product wrote. docs/FORMATS.md and docs/MODEL.md have the rules in words; here they are
written down once more, in another language and another way. What must come out of a case is computed here.
"""
import sys
from pathlib import Path

sys.dont_write_bytecode = True
sys.path.insert(0, str(Path(__file__).resolve().parent))

from vectors_of import arguments, checkpoints, definition_cases, entries, intervals, messages, numbers, script_cases

CRATE = Path(__file__).resolve().parent.parent / "crates" / "fp_vectors"

# In the order in which the program judges them.
FILES = {
    "numbers.txt": numbers.lines,
    "fsas.txt": arguments.lines,
    "messages.txt": messages.lines,
    "replies.txt": messages.reply_lines,
    "definitions.txt": definition_cases.lines,
    "scripts.txt": script_cases.lines,
    "entries.txt": entries.lines,
    "groups.txt": entries.log_lines,
    "intervals.txt": intervals.lines,
    "checkpoints.txt": checkpoints.lines,
}


def written():
    """The texts of all files, by their paths."""
    found, printed = {}, ""
    for name, lines in FILES.items():
        head, *cases = lines()
        found[CRATE / "data" / name] = "".join(f"{line}\n" for line in [head] + cases)
        printed += f"{name}: {len(cases)} cases, 0 differ\n"
    found[CRATE / "stdout"] = printed
    return found


def main():
    if sys.argv[1:] not in [[], ["--check"]]:
        print("usage: vectors.py [--check]")
        return 2
    differ = 0
    for path, text in written().items():
        if not sys.argv[1:]:
            path.write_text(text)
        elif not path.exists() or path.read_text() != text:
            print(f"{path.name} isn't what this program writes")
            differ = 1
    return differ


if __name__ == "__main__":
    sys.exit(main())
