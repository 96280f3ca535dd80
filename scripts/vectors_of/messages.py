"""Message lines, and the lines that terminals are sent."""
import re

from .texts import Draws, of_bytes, of_text

NAME = rb"[A-Z][A-Z0-9]{0,7}"
FAULTS = ["no terminal", "no transaction", "too long", "not ascii"]


def terminal(line):
    """The terminal of a line, or None."""
    word = re.match(rb"[^ \t]*", line).group()
    return word if re.fullmatch(NAME, word) else None


def read(line, has_number=False):
    """The terminal, perhaps a number, the transaction and the text of a line, or its fault."""
    number = re.fullmatch(rb"([^ \t]*)[ \t]([1-9][0-9]{0,17})(?:[ \t](.*))?", line, re.DOTALL)
    if has_number and number:
        # The line reads as one without the number.
        found = read(number[1] + b" " + (number[3] or b""))
        return found if isinstance(found, str) else found.replace(b" ", b" " + number[2] + b" ", 1)
    words = re.fullmatch(rb"([^ \t]*)(?:[ \t]([^ \t]*)(?:[ \t](.*))?)?", line, re.DOTALL)
    if not re.fullmatch(NAME, words[1]):
        return "no terminal"
    if words[2] is None or not re.fullmatch(NAME, words[2]):
        return "no transaction"
    text = words[3] or b""
    if len(text) > 1000:
        return "too long"
    if any(not 32 <= byte <= 126 for byte in text):
        return "not ascii"
    return words[1] + b" " + words[2] + b" " + text


def message_line(line, has_number=False):
    found = read(line, has_number)
    shown = found if isinstance(found, str) else of_text(found)
    word = "numbered" if has_number else "message"
    return f"{word} {of_text(line)} => {shown}"


def terminal_line(line):
    found = terminal(line)
    return f"terminal {of_text(line)} => {'none' if found is None else found.decode()}"


ROWS = [
    b"", b" T1 X", b"t1 X", b"1T X", b"T1\r X", b"ABCDEFGHI X", b"? ? \x7f", b"T1", b"T1 ", b"T1  X", b"T1 ABCDEFGHI",
    b"T1 X\x1f", b"T1 X a\x1f", b"T1 X \x7f", b"T1 X a\tb", "T1 X \u00e4".encode(), b"T1 X", b"T1 X ", b"T1\tX\t a",
    b"ABCDEFGH A2345678  ~ ", b"Z9 DEPOSIT A001 10", b"T1 ?", b" T1", b"T1 \t", b"T1\t\tX", b"T1 X\r", b"T1 X a\r",
    b"T1 X\n", b"\xef\xbb\xbfT1 X", b"T1\x00 X", b"T1 X\x00", b"T1 X \x00", b"T1 X\xa0A", b"*", b"T1 *", b"T1 X *",
]
WORDS = [b"", b"A", b"Z9", b"ABCDEFGH", b"ABCDEFGHI", b"A2345678", b"9A", b"a", b"A_", b"A-B", b"\xc1", b"IO", b"KEY"]
BORDER_BYTES = [0, 9, 10, 13, 31, 32, 33, 47, 48, 57, 58, 64, 65, 90, 91, 96, 97, 122, 126, 127, 128, 255]


def line_rows():
    yield from ROWS
    for first in WORDS:
        for second in WORDS:
            yield first + b" " + second
            yield first + b"\t" + second + b" text"
        yield first + b"  A"
    # Each byte at each place of a short line.
    for byte in range(256):
        yield b"T1 X a" + bytes([byte]) + b"b"
        yield b"T" + bytes([byte]) + b" X"
    for byte in BORDER_BYTES:
        yield b"T1 X" + bytes([byte])
        yield bytes([byte]) + b"1 X"
        yield b"T1 " + bytes([byte])
    for count in [0, 1, 999, 1000, 1001, 2000]:
        for byte in [32, 65, 126, 127, 9]:
            yield b"T1 X " + bytes([byte]) * count
        yield b"T1 X " + b"a" * count + b"\x00"
        yield b"t1 x " + b"a" * count
        yield b"T1 x " + b"a" * count
    draws = Draws(21)
    for _ in range(40):
        yield bytes(draws.one_of(BORDER_BYTES) for _ in range(1 + draws.below(14)))


# Words where a number may stand: right ones, and others.
NUMBERS = [b"1", b"5", b"9", b"10", b"90", b"007", b"0", b"00", b"01", b"0" * 18, b"0" * 19]
NUMBERS += [b"-1", b"+1", b"1.", b"1,000", b"1X", b"X1", b"0x1"]
NUMBERS += [b"1" * count for count in range(2, 21)] + [b"9" * count for count in [17, 18, 19, 20]]
NUMBERS += [b"1" + b"0" * count for count in [16, 17, 18, 19]]
NUMBERS += [b"0" + b"9" * 17, b"18446744073709551615", b"18446744073709551616"]
NUMBERS += [b"123456789012345678", b"1234567890123456789", b"1\xb2", b"\xd9\xa1", b"1_0", b"*"]
BEHIND_NUMBER = [b"", b" ", b"  X", b" X", b"\tX\ta", b" X ", b" x", b" 5 X", b" X \x7f"]


def number_rows():
    """Lines with a number or what looks like one behind the terminal."""
    for number in NUMBERS:
        for behind in BEHIND_NUMBER:
            yield b"T1 " + number + behind
    for terminal in [b"", b"t1", b"1", b"5", b"ABCDEFGH", b"ABCDEFGHI", b"?"]:
        for between in [b" ", b"\t", b"  ", b" \t", b""]:
            for behind in [b"7 X", b"7\tX a", b"7", b"7 "]:
                yield terminal + between + behind
    for behind in [
        b"\t", b" X  a b", b" 5", b" 0 X", b" 007 X", b" ABCDEFGH", b" ABCDEFGHI a", b" X 5", b" X \x1f", b" X1 7",
    ]:
        for number in [b"7", b"70", b"123456789012345678", b"1234567890123456789"]:
            yield b"T1 " + number + behind
    for byte in range(256):
        yield b"T1 7" + bytes([byte]) + b" X"
    for byte in BORDER_BYTES:
        yield b"T1 " + bytes([byte]) + b" X"
        yield b"T1" + bytes([byte]) + b"7 X"
        yield b"T1 7" + bytes([byte]) + b"X a"
        yield b"T1 7 X" + bytes([byte]) + b"a"
        yield b"T1 7 X a" + bytes([byte])
    for count in [999, 1000, 1001]:
        for byte in [32, 49, 126, 127]:
            yield b"T1 123456789012345678 X " + bytes([byte]) * count
        yield b"T1 7 x " + b"a" * count


def lines():
    yield "Message lines: `message LINE`, `numbered LINE` of a format with numbers, and `terminal LINE`."
    rows, numbered = list(dict.fromkeys(line_rows())), list(dict.fromkeys(number_rows()))
    yield from (message_line(row) for row in rows)
    yield from (message_line(row, True) for row in numbered + rows[::3])
    yield from (message_line(row) for row in numbered[::4])
    yield from (terminal_line(row) for row in rows[::3] + numbered[::12])


# ---- what terminals are sent

VERDICTS = {
    "verify": "NO VERIFY", "seqfull": "NO SEQFULL", "deadlock": "NO DEADLOCK", "device": "NO DEVICE",
    "memory": "NO MEMORY", "unknown": "NO UNKNOWN",
}


def verdict(outcome, text):
    """What is told behind the terminal."""
    word, *told = outcome.split(" ")
    if word == "done":
        return b"OK" + (b" " + text if text else b"")
    if word in ["roll", "old"]:
        return f"NO {'ROLB' if word == 'roll' else 'OLD'} {int(told[0])}".encode()
    return VERDICTS[word].encode()


def reply(outcome, line, text, kept=b""):
    """The line that is sent for an entry. A repeat sends what was kept, and nobody is told of a purge or a format."""
    if outcome in ["purge", "format"]:
        return b""
    if outcome == "repeat":
        return kept + b"\n"
    return (terminal(line) or b"?") + b" " + verdict(outcome, text) + b"\n"


def reply_line(outcome, line, text, kept=b""):
    shown = [of_text(part, escaped=b"\\>/") for part in [line, text]]
    word = f"repeat {of_bytes(kept)}" if outcome == "repeat" else outcome
    return f"{word} / {shown[0]} / {shown[1]} => {of_text(reply(outcome, line, text, kept))}"


ADDRESSED = [
    b"T1 X", b"T1", b"", b"t1 X", b"ABCDEFGH\tX", b"ABCDEFGHI X", b" T1", b"T1\r X", b"A\x00 X", b"? X", b"Z9\xff",
    b"T1 5 X", b"5 X",
]
KEPT = [b"", b"T1 OK NEW", b"T2 OK", b"T1 NO ROLB 7", b"? NO UNKNOWN", b"T1 OK " + b"a" * 1000]
KEPT += [b"\n", b" ", b"a/b", b"\\", b"\x00\xff"]
OLDER = [0, 1, 9, 10, 99, 100, 12_345, 10**17, 10**18 - 1, 10**18, 2**63 - 1, 2**63, 2**64 - 1]


def reply_lines():
    yield "The lines that terminals are sent: `OUTCOME / LINE / REPLY`."
    outcomes = ["done", "purge", "format", "old 3"] + list(VERDICTS)
    outcomes += [f"roll {code}" for code in [0, 1, 9, 10, 98, 99, 100, 999, 1000, 9999, 10000, 65535]]
    found = [reply_line(outcome, line, b"") for line in ADDRESSED for outcome in outcomes]
    for text in [b"NEW", b" ", b"  ", b"NEW ", b" NEW", b"0", b"~", b"a" * 1000, b"\\", b"OK OK", b"/"]:
        found.append(reply_line("done", b"T1 X", text))
        found.append(reply_line("done", b"", text))
    # A reply stands only in what was done; another outcome is told without.
    for outcome in outcomes:
        found.append(reply_line(outcome, b"T1 DEPOSIT A001 10", b"LOST"))
    for last in OLDER:
        found.append(reply_line(f"old {last}", b"T1 5 DEPOSIT A001 10", b""))
        found.append(reply_line(f"old {last}", b"", b"LOST"))
    # What was kept is sent as it is, whatever the line is and whoever sent it.
    for kept in KEPT:
        for line in ADDRESSED[::4] + [b"T1 5 X"]:
            found.append(reply_line("repeat", line, b"", kept))
        found.append(reply_line("repeat", b"T1 5 X", b"LOST", kept))
    found.append(reply_line("repeat", b"T1 5 X", b"", b"x" * 65_535))
    yield from dict.fromkeys(found)
