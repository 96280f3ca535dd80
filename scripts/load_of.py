#!/usr/bin/env python3
"""load_of.py N: draws the messages and the schedule of the number N, apart from the product, and prints how each
begins and ends and how many bytes it has: the rows of `low_tests/src/loads.rt`. With a folder behind N it writes both
there."""
import sys


def drawing(number):
    """Answers draws: a whole number below the one that it is given."""
    x = number

    def draw(below):
        nonlocal x
        x = (1103515245 * x + 12345) % 2**31
        return x // 256 % below

    return draw


def messages(draw):
    lines = ["T1 NEWCUST C001 ANN"]
    for _ in range(1999):
        terminal, kind = 1 + draw(20), draw(4)
        account, amount = ("A001", "A002")[draw(2)], 1 + draw(100)
        text = (f"DEPOSIT {account} {amount}", f"WDRAW {account} {amount}", f"ASK {account}", f"NOTE C001 N{amount}")
        lines.append(f"T{terminal} {text[kind]}")
    return lines


def tokens(draw):
    for _ in range(20000):
        kind = draw(8)
        if kind == 0:
            yield "IN"
        elif kind <= 4:
            yield f"R{kind}"
        elif kind == 5:
            yield "LOG"
        elif kind == 6:
            yield "CKPT" if draw(50) == 0 else "OUT"
        else:
            yield "PURGE/AREA2/2" if draw(4) == 0 else "IN"


if len(sys.argv) not in (2, 3):
    sys.exit(__doc__)
draw = drawing(int(sys.argv[1]))
parts = {"messages.txt": messages(draw), "schedule.txt": list(tokens(draw))}
for name, lines in parts.items():
    text = "".join(line + "\n" for line in lines)
    print(name, repr("".join(text.splitlines(True)[:4])), repr("".join(text.splitlines(True)[-2:])), len(text))
    if len(sys.argv) == 3:
        with open(f"{sys.argv[2]}/{name}", "w") as file:
            file.write(text)
