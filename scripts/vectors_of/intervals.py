"""Intervals of an area, and the elements that tile them."""
from .texts import Draws, of_bytes, of_text

SIZES = [512, 1024, 2048, 4096]
# The greatest segment type whose content isn't shown: what a new element holds isn't said.
HIDDEN = 3
CONTROL, BASE, DEPENDENT, SEQUENTIAL, INDEPENDENT = range(1, 6)
TILED = [BASE, DEPENDENT, INDEPENDENT]


def in_fours(length):
    return -(-length // 4) * 4


# ---- elements: a list of lengths, segment types (None where free) and contents

def element(length, kind, content=b""):
    tag = b"\x00\x00" if kind is None else bytes([1, kind])
    return length.to_bytes(2, "big") + tag + content.ljust(length - 4, b"\x00")


def tiles_of(data):
    """The elements of the bytes behind a head, or None where none tile them."""
    found, at = [], 0
    while at < len(data):
        length = int.from_bytes(data[at:at + 2], "big")
        tag, kind = data[at + 2:at + 4] if len(data) >= at + 4 else (9, 9)
        if length < 4 or length % 4 or at + length > len(data) or tag > 1 or tag == 0 and kind != 0:
            return None
        found.append((length, kind if tag else None, data[at + 4:at + length]))
        at += length
    is_free = [kind is None for _, kind, _ in found]
    return None if any(one and other for one, other in zip(is_free, is_free[1:])) else found


def is_interval(data):
    if len(data) not in SIZES or not CONTROL <= data[0] <= INDEPENDENT:
        return False
    kind = data[0]
    zeros = data[1:4] + data[14:16]
    zeros += b"" if kind == BASE else data[4:14]
    zeros += b"" if kind in [BASE, INDEPENDENT] else data[16:24]
    zeros += b"" if kind == INDEPENDENT else data[24:32]
    zeros += data[64:] if kind == CONTROL else b""
    return not any(zeros) and (kind not in TILED or tiles_of(data[32:]) is not None)


def take(tiles, length):
    """The place of a new element of so many bytes; None where none has room."""
    needed = in_fours(4 + length)
    place = 32
    for at, (size, kind, _) in enumerate(tiles):
        if kind is None and size >= needed:
            rest = [(size - needed, None, b"")] if size > needed else []
            tiles[at:at + 1] = [(needed, 0, b"")] + rest
            return place
        place += size
    return None


def used_at(tiles, wanted):
    """The number of the used element at a place; None where none is there."""
    place = 32
    for at, (size, kind, _) in enumerate(tiles):
        if place == wanted and kind is not None:
            return at
        place += size
    return None


def free(tiles, at):
    tiles[at] = (tiles[at][0], None, b"")
    for first in [at, at - 1]:
        if 0 <= first and first + 1 < len(tiles) and tiles[first][1] is None and tiles[first + 1][1] is None:
            tiles[first:first + 2] = [(tiles[first][0] + tiles[first + 1][0], None, b"")]


def step(tiles, words):
    """What a step is answered."""
    if words[0] == "take":
        place = take(tiles, words[1])
        return "full" if place is None else str(place)
    at = used_at(tiles, words[1])
    if at is None:
        return "unused"
    if words[0] == "free":
        free(tiles, at)
        return "freed"
    tiles[at] = (tiles[at][0], words[2], tiles[at][2])
    return "set"


def shown(tiles):
    text, place = "", 32
    for size, kind, content in tiles:
        text += f"| {place} {size} "
        text += "free " if kind is None else f"{kind} "
        text += of_bytes(content) + " " if kind is not None and kind > HIDDEN else ""
        place += size
    return text


# ---- the cases

def head(kind, root=bytes(10), link=0, owner=0):
    return bytes([kind, 0, 0, 0]) + root + b"\x00\x00" + link.to_bytes(8, "big") + owner.to_bytes(8, "big")


def interval(kind, tiles, size=512):
    """An interval with these elements, and a free one behind them where there is room."""
    data = head(kind) + b"".join(element(*tile) for tile in tiles)
    left = size - len(data)
    return data + (element(left, None) if left else b"")


def read_line(data):
    return f"read {of_bytes(data)} => {'yes' if is_interval(data) else 'no'}"


def on_line(data, steps):
    tiles = tiles_of(data[32:]) if data[0] in TILED else []
    answers = [step(tiles, words) for words in steps]
    written = " : ".join(" ".join(map(str, words)) for words in steps)
    found = "".join(f"{one} " for one in answers) + shown(tiles)
    return f"on {of_bytes(data)} : {written} => {of_text(found.encode())}"


def reads():
    usual = interval(BASE, [(12, 0)])
    for size in [0, 1, 31, 32, 63, 64, 100, 511, 512, 513, 1024, 1536, 2048, 4095, 4096, 4097, 8192]:
        for kind in range(7):
            data = interval(kind, [], size) if kind in TILED and size >= 36 else (head(kind) + bytes(size))[:size]
            yield data
    for kind in list(range(12)) + [127, 128, 254, 255]:
        yield head(kind) + bytes(480)
        yield head(kind) + element(480, None)
    # Each byte of the head, and of the numbers of control.
    for kind in range(1, 6):
        whole = interval(kind, []) if kind in TILED else head(kind) + bytes(480)
        for place in list(range(1, 40)) + [47, 48, 56, 63, 64, 65, 510, 511]:
            for byte in [1 if place % 2 else 255]:
                yield whole[:place] + bytes([byte]) + whole[place + 1:]
    # Each byte of the elements' fronts.
    two = interval(BASE, [(12, 7, b"abcdefgh"), (20, None), (16, 255, b"x")])
    fronts = [32, 33, 34, 35, 44, 45, 46, 47, 64, 65, 66, 67, 80, 81, 82, 83]
    for whole, places in [(usual, fronts[:8] + [36, 43, 48, 511]), (two, fronts)]:
        for place in places:
            for byte in [0, 1, 2, 4, 16, 255]:
                yield whole[:place] + bytes([byte]) + whole[place + 1:]
    for size in SIZES:
        yield interval(BASE, [(4, 1)] * ((size - 32) // 4), size)
        yield interval(INDEPENDENT, [(size - 32, 3)], size)
        yield interval(DEPENDENT, [(4, 1), (4, None)] * ((size - 32) // 8), size)
        yield interval(DEPENDENT, [(4, 1), (4, None), (4, None)], size)
        yield interval(DEPENDENT, [(size - 36, None)], size)
        yield interval(BASE, [(size - 36, 2)], size)
        yield interval(BASE, [(size - 36, 2)], size)[:-2] + b"\x00\x00"
        yield head(INDEPENDENT, bytes(10), 2**64 - 1, 2**64 - 1) + element(size - 32, None)
        yield head(BASE, b"\xff" * 10, 2**64 - 1) + element(size - 32, None)
    for length in [0, 1, 2, 3, 5, 6, 7, 476, 479, 480, 481, 484, 512, 65_532, 65_535]:
        for tag in [0, 1]:
            yield head(BASE) + length.to_bytes(2, "big") + bytes([tag, 0]) + bytes(476)


def steps():
    usual = interval(BASE, [])
    rows = [
        [("take", 10), ("take", 20), ("take", 437), ("take", 436), ("take", 0)],
        [("take", 4), ("take", 4), ("take", 4), ("free", 32), ("free", 48), ("free", 40)],
        [("take", 5), ("type", 32, 3), ("type", 33, 3), ("free", 44), ("free", 65_535)], [("take", 65_535)],
        [("free", 32)], [("free", 0), ("free", 31)], [("take", 8), ("free", 32), ("free", 32)],
        [("take", 8), ("take", 8), ("free", 32), ("take", 4), ("take", 8)],
        [("take", 0)] * 4 + [("take", 460), ("take", 0), ("take", 0)], [("take", 476), ("free", 32), ("take", 475)],
        [("take", 477)], [("take", 473), ("free", 32), ("take", 0), ("take", 472)],
    ]
    lengths = [0, 1, 2, 3, 4, 5, 7, 8, 9, 467, 468, 469, 472, 473, 475, 476, 477, 480]
    rows += [[("take", length), ("take", 0)] for length in lengths]
    for place, row in enumerate(rows):
        yield usual, row
        if place % 2 == 0 or place < 12:
            yield interval(DEPENDENT, [(16, 4, b"abc"), (24, None), (12, 200, b"\xff" * 8)]), row
    for kind in [CONTROL, SEQUENTIAL]:
        yield head(kind) + bytes(480), [("take", 0), ("free", 32), ("type", 32, 1)]
    for size in SIZES:
        row = [("take", size - 36), ("free", 32), ("take", size - 40), ("take", 0), ("free", 32)]
        yield interval(INDEPENDENT, [], size), row
        yield interval(INDEPENDENT, [], size), [("take", size - 35), ("take", size - 41), ("take", 0), ("take", 0)]
    draws = Draws(61)
    for size in [512, 512, 1024, 4096]:
        for _ in range(12):
            yield interval(draws.one_of(TILED), drawn_tiles(draws), size), drawn_steps(draws, size)


def drawn_tiles(draws):
    tiles = []
    for _ in range(draws.below(6)):
        length = 4 + 4 * draws.below(12)
        if draws.below(3) == 0 and tiles and tiles[-1][1] is not None:
            tiles.append((length, None))
        else:
            tiles.append((length, draws.one_of([0, 1, 4, 200]), bytes([draws.below(256)]) * (length - 4)))
    return tiles + [(8, 1, b"last")]


def drawn_steps(draws, size):
    found = []
    for _ in range(4 + draws.below(8)):
        word = draws.one_of(["take", "take", "free", "free", "type"])
        place = 32 + 4 * draws.below(40)
        if word == "take":
            found.append(("take", draws.one_of([0, 4, draws.below(60), draws.below(size)])))
        elif word == "free":
            found.append(("free", place))
        else:
            found.append(("type", place, draws.below(4)))
    return found


def lines():
    yield "Intervals: `read BYTES`, and `on BYTES : STEP : STEP ..`."
    found = [read_line(data) for data in reads()] + [on_line(data, row) for data, row in steps()]
    yield from dict.fromkeys(found)
