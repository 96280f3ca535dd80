"""Numbers in the fields of segments."""
from .texts import Draws, of_bytes

MOST = 2**127 - 1
LEAST = -(2**127)


def read(kind, data):
    """The number that the bytes of a field are, or None."""
    if kind == "X" and 1 <= len(data) <= 8:
        return int.from_bytes(data, "big")
    if kind == "H" and len(data) == 2 or kind == "F" and len(data) == 4:
        return int.from_bytes(data, "big", signed=True)
    if kind == "P" and 1 <= len(data) <= 16:
        return packed(data.hex())
    return None


def packed(halves):
    """The number that half bytes are: digits, and a sign behind them."""
    digits, sign = halves[:-1], halves[-1]
    if any(half not in "0123456789" for half in digits) or sign not in "abcdef":
        return None
    return -int(digits) if sign in "bd" else int(digits)


def write(kind, size, number):
    """The preferred bytes of a number in a field of this size, or None."""
    if kind == "P" and 1 <= size <= 16:
        digits = str(abs(number)).rjust(2 * size - 1, "0")
        sign = "d" if number < 0 else "c"
        return bytes.fromhex(digits + sign) if len(digits) < 2 * size else None
    is_size = {"X": 1 <= size <= 8, "H": size == 2, "F": size == 4}.get(kind, False)
    if not is_size:
        return None
    try:
        return number.to_bytes(size, "big", signed=kind != "X")
    except OverflowError:
        return None


def read_line(kind, data):
    number = read(kind, data)
    return f"read {kind} {of_bytes(data)} => {'none' if number is None else number}"


def write_line(kind, size, number):
    data = write(kind, size, number)
    return f"write {kind} {size} {number} => {'refused' if data is None else of_bytes(data)}"


def lines():
    yield "Numbers in the fields of segments: `read KIND BYTES`, and `write KIND SIZE NUMBER`."
    found = dict.fromkeys(list(reads()) + list(writes()))
    yield from found


def reads():
    for data in ["123f", "123a", "123d", "123b", "0d", "1a3c", "a13c", "12ac", "1239", ""]:
        yield read_line("P", bytes.fromhex(data))
    yield from packed_reads()
    draws = Draws(1)
    for kind in "CXHFP":
        for size in range(19):
            for first, rest in [(b"\x00", b"\x00"), (b"\xff", b"\xff"), (b"\x80", b"\x00"), (b"\x7f", b"\xff")]:
                yield read_line(kind, first * min(size, 1) + rest * (size - 1))
            for _ in range(2):
                yield read_line(kind, draws.bytes(size))


def packed_reads():
    # Each sign behind each digit, in one byte and in the last of several.
    for byte in range(256):
        yield read_line("P", bytes([byte]))
    for size in [2, 9, 16]:
        for sign in range(16):
            yield read_line("P", bytes.fromhex("12" * (size - 1)) + bytes([0x30 + sign]))
        # A half byte that is no digit, at each place.
        for place in range(2 * size - 1):
            for half in "af":
                halves = "7" * place + half + "7" * (2 * size - 2 - place) + "c"
                yield read_line("P", bytes.fromhex(halves))
    draws = Draws(2)
    for size in [1, 2, 3, 5, 8, 9, 10, 15, 16, 17]:
        for sign in "abcdef":
            for digits in ["0" * (2 * size - 1), "9" * (2 * size - 1), "1" + "0" * (2 * size - 2)]:
                yield read_line("P", bytes.fromhex(digits + sign))
            digits = "".join(str(draws.below(10)) for _ in range(2 * size - 1))
            yield read_line("P", bytes.fromhex(digits + sign))


def writes():
    for size, number in [(2, 123), (2, -123), (2, 0), (1, -9), (2, 1000), (2, -1000)]:
        yield write_line("P", size, number)
    yield write_line("X", 3, 258)
    for kind in "CXHFP":
        for size in range(19):
            is_size = {"X": 1 <= size <= 8, "H": size == 2, "F": size == 4, "P": 1 <= size <= 16}.get(kind, False)
            if kind == "P" and size in [4, 6, 7, 11, 12, 13, 14]:
                continue
            for number in sorted(borders(size)) if is_size else [0, 1, -1]:
                yield write_line(kind, size, number)


def borders(size):
    """Numbers at the borders of fields of this size, and a few others."""
    found = {0, 1, -1, 9, -9, MOST, LEAST, 10**31, 1 - 10**31, 2**64, 2**63, -(2**63)}
    tops = [256**size, 256**size // 2, 10 ** max(2 * size - 1, 0), 10 ** max(2 * size - 2, 0)]
    for top in tops:
        found |= {top - 1, top, top + 1, -top, -top - 1, 1 - top}
    draws = Draws(size + 3)
    for bits in [8 * size, 7 * size + 1]:
        number = int.from_bytes(draws.bytes(17), "big") % 2 ** max(bits, 1)
        found |= {number, -number}
    return {number for number in found if LEAST <= number <= MOST}
