"""Field search arguments: lists as bytes, and lists that are tried on a segment."""
import re

from . import numbers
from .texts import Draws, of_bytes

FIELDS = [
    ("ACCT", "C", 4), ("BAL", "P", 4), ("CITY", "C", 4), ("COUNT", "X", 1),
    ("HALF", "H", 2), ("FULL", "F", 4), ("MOST", "P", 16), ("WIDE", "X", 8),
]
SEGMENT = bytes.fromhex("41303031" "0000100c" "4f534c4f" "ff" "fffe" "00011170" + "99" * 15 + "9c" + "00" * 6 + "0102")
COMPARE = {
    "E": lambda a, b: a == b, "G": lambda a, b: a > b, "H": lambda a, b: a >= b,
    "L": lambda a, b: a < b, "M": lambda a, b: a <= b, "N": lambda a, b: a != b,
}


# ---- lists as bytes

def argument(name, op, operand, status=b" "):
    """An argument without its connector."""
    return name.encode().ljust(8) + status + op.encode() + len(operand).to_bytes(2, "big") + operand


def listed(arguments):
    """Arguments with a star behind each but the last, and a blank behind that."""
    return b"*".join(arguments) + b" "


def read(data):
    """The arguments that bytes are, or the word and the place of the first fault."""
    found, place = [], 0
    while True:
        length = int.from_bytes(data[place + 10:place + 12], "big")
        end = place + 12 + length
        if len(data) < place + 12 or end >= len(data):
            return f"short {place}"
        is_last = end + 1 == len(data)
        if data[end:end + 1] != (b" " if is_last else b"*"):
            return f"connector {end}"
        name, status, op = data[place:place + 8], data[place + 8:place + 9], data[place + 9:place + 10]
        found.append((name, status, op, data[place + 12:end]))
        if is_last:
            return found
        place = end + 1


def list_line(data):
    found = read(data)
    if isinstance(found, list):
        found = " / ".join(" ".join(of_bytes(part) for part in parts) for parts in found)
    return f"list {of_bytes(data)} => {found}"


def list_lines():
    withdrawal = listed([argument("BAL", "H", b"60"), argument("BAL", "-", b"60")])
    others = [
        listed([argument("A", "E", b"")]),
        listed([argument("A", "E", b""), argument("B", "=", b"*"), argument("ABCDEFGH", "N", b"x y", b"D")]),
        listed([argument("lower", "?", bytes(range(20)), b"\x00")]),
    ]
    for data in [withdrawal] + others:
        for end in range(len(data) + 1):
            yield list_line(data[:end])
        for more in [b"*", b" ", b"\x00", b"  ", b" *", withdrawal]:
            yield list_line(data + more)
    for byte in list(range(30, 50)) + [0, 1, 9, 10, 13, 64, 95, 127, 128, 160, 170, 255]:
        yield list_line(withdrawal[:29] + bytes([byte]))
    # An operand's length of each border, true and one off.
    yield from (list_line(argument("A", "=", b"\x41" * length) + b" ") for length in [4096, 65_534, 65_535])
    for length in [0, 1, 2, 255, 256, 257]:
        long = argument("A", "=", b"\x41" * length)
        for data in [long + b" ", long, long[:-1] + b" ", long + b"*" + withdrawal, long + b" " + withdrawal]:
            yield list_line(data)
    for place in range(30):
        for byte in [1, 42]:
            yield list_line(withdrawal[:place] + bytes([byte]) + withdrawal[place + 1:])


# ---- lists that are tried

def letter(segment, name, op, operand):
    """The letter of an argument on a segment, and the segment behind it."""
    if op not in COMPARE and op not in "+-=":
        return "A", segment
    at = 0
    for place, (other, kind, length) in enumerate(FIELDS):
        if other == name:
            break
        at += length
    else:
        return "H", segment
    field = segment[at:at + length]
    if kind == "C":
        said, changed = on_characters(field, place == 0, op, operand)
    else:
        said, changed = on_number(field, kind, op, operand)
    if said != " ":
        return said, segment
    return said, segment[:at] + changed + segment[at + length:]


def on_characters(field, is_key, op, operand):
    if op in "+-":
        return "A", field
    if op == "=" and is_key:
        return "C", field
    if len(operand) > len(field):
        return "B", field
    padded = operand.ljust(len(field))
    if op == "=":
        return " ", padded
    return " " if COMPARE[op](field, padded) else "D", field


def on_number(field, kind, op, operand):
    if not re.fullmatch(rb"-?[0-9]{1,31}", operand, re.DOTALL):
        return "B", field
    given = int(operand)
    now = numbers.read(kind, field)
    if now is None and op != "=":
        return "E", field
    if op in COMPARE:
        return " " if COMPARE[op](now, given) else "D", field
    wanted = {"+": lambda: now + given, "-": lambda: now - given, "=": lambda: given}[op]()
    changed = numbers.write(kind, len(field), wanted)
    return ("G", field) if changed is None else (" ", changed)


def try_line(segment, tries):
    """A line of arguments, given as names, operations and operands."""
    data = listed([argument(name, op, operand, b"?") for name, op, operand in tries])
    letters, now = "", segment
    for name, op, operand in tries:
        said, now = letter(now, name, op, operand)
        letters += said
    word = "bad" if letters.strip() else "good"
    first = "usual" if segment == SEGMENT else of_bytes(segment)
    last = "same" if now == segment else of_bytes(now)
    return f"try {of_bytes(data)} {first} => {word} {of_bytes(letters.encode())} {last}"


ROWS = [
    ("NONE", "*", b"1"), ("BAL", "e", b"100"), ("CITY", "+", b"1"), ("ACCT", "-", b"TOO LONG"), ("NONE", "=", b"1"),
    ("BALANCE", "E", b"100"), ("ACCT", "=", b"A001"), ("ACCT", "=", b"TOO LONG"), ("ACCT", "E", b"A001"),
    ("CITY", "=", b"BERGEN"), ("CITY", "E", b"OSLO "), ("BAL", "+", b""), ("BAL", "+", b"-"), ("BAL", "+", b"+1"),
    ("BAL", "E", b" 1"), ("BAL", "=", b"0" * 31 + b"1"), ("BAL", "N", b"00100"), ("BAL", "N", b"-100"),
    ("CITY", "G", b"OSL"), ("CITY", "L", b"P"), ("CITY", "E", b"OSL"), ("HALF", "L", b"-1"), ("MOST", "+", b"1"),
    ("MOST", "+", b"9" * 31), ("MOST", "-", b"-" + b"9" * 31), ("BAL", "=", b"10000000"), ("COUNT", "+", b"1"),
    ("COUNT", "-", b"256"), ("HALF", "-", b"32767"), ("FULL", "=", b"2147483648"), ("MOST", "N", b"-" + b"9" * 31),
    ("BAL", "-", b"160"), ("BAL", "-", b"100"), ("BAL", "+", b"9999899"), ("BAL", "+", b"9999900"), ("BAL", "=", b"-7"),
    ("CITY", "=", b"AS"), ("FULL", "-", b"70001"), ("HALF", "+", b"258"),
]
FORMS = [
    b"", b"-", b"0", b"-0", b"1", b"-1", b"+1", b"1 ", b" 1", b"1-", b"--1", b"1.0", b"x", b"1x", b"\xff", b"1\n",
    b"\x00", b"00100", b"9" * 31, b"-" + b"9" * 31, b"0" * 31, b"0" * 32, b"1" + b"0" * 31,
]
OPERANDS = {
    "ACCT": [b"", b"A", b"A001", b"A0010", b"A001 ", b"A000", b"A002", b"\xff", b"\x00"],
    "CITY": [b"", b" ", b"O", b"OSL", b"OSLO", b"OSLP", b"OSLN", b"OSLO ", b"BERGEN", b"\xff", b"\x00", b"0"],
    "BAL": [b"99", b"100", b"101", b"-100", b"9999899", b"9999900", b"10000099", b"10000100", b"9999999", b"10000000"],
    "COUNT": [b"254", b"255", b"256", b"-255"],
    "HALF": [b"-2", b"-3", b"32767", b"32768", b"32766", b"-32766", b"-32767", b"32769", b"32770"],
    "FULL": [b"69999", b"70000", b"70001", b"2147413647", b"2147413648", b"-2147483648", b"-2147483649"],
    "MOST": [b"9" * 30, b"5" * 31],
    "WIDE": [b"257", b"258", b"259", b"18446744073709551357", b"18446744073709551358", b"18446744073709551615",
    b"18446744073709551616"],
}


def try_lines():
    for row in ROWS:
        yield try_line(SEGMENT, [row])
    for name, _, _ in FIELDS:
        for op in "EGHLMN+-=":
            for operand in OPERANDS[name]:
                yield try_line(SEGMENT, [(name, op, operand)])
    for name in ["BAL", "WIDE", "MOST"]:
        for op in "EL+-=":
            for operand in FORMS[::1 if name == "BAL" else 2]:
                yield try_line(SEGMENT, [(name, op, operand)])
    for op in range(32, 128):
        yield try_line(SEGMENT, [("BAL", chr(op), b"100")])
    yield from name_tries()
    yield from broken_tries()
    yield from long_tries()


def name_tries():
    for name in ["", "B", "BA", "BALA", "bal", "BAL\x00", "ACCTBAL", "STATUS", "KEY", "MOST", "WIDE", "WIDES"]:
        for op in "E=+*":
            yield try_line(SEGMENT, [(name, op, b"1")])


def broken_tries():
    """Tries of a field that is no number."""
    for half in ["001a0c", "000019", "0000ff"]:
        broken = SEGMENT[:4] + bytes.fromhex("00" + half) + SEGMENT[8:]
        for op in "EGHLMN+-=":
            for operand in [b"1", b"x", b"100"]:
                yield try_line(broken, [("BAL", op, operand)])


def long_tries():
    """Lists in which an argument meets what those before it left."""
    yield try_line(SEGMENT, [("BAL", "-", b"060"), ("BAL", "H", b"060"), ("BAL", "+", b"020"), ("BAL", "E", b"060")])
    draws = Draws(11)
    operands = [b"0", b"1", b"60", b"100", b"-5", b"9999900", b"OSLO", b"AS", b"x", b"200"]
    for _ in range(45):
        count = 2 + draws.below(4)
        names = [draws.one_of(["BAL", "BAL", "COUNT", "HALF", "CITY", "FULL", "ACCT", "NONE"]) for _ in range(count)]
        yield try_line(SEGMENT, [(name, draws.one_of("EGHLMN+-=+-=?"), draws.one_of(operands)) for name in names])


def lines():
    yield "Lists of field search arguments: `list BYTES`, and `try LIST SEGMENT`."
    yield from dict.fromkeys(list(list_lines()) + list(try_lines()))
