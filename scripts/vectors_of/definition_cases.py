"""Definitions texts: each rule with a text just inside it and just outside, and texts with two faults."""
import copy
import json

from . import definitions
from .texts import Draws, block

GONE = object()


class Raw(str):
    """A value as it is written."""


DATE = Raw("1979-05-27")

# ---- texts of tables

def value_text(value):
    if isinstance(value, Raw):
        return str(value)
    if isinstance(value, bool):
        return "true" if value else "false"
    if isinstance(value, str):
        return json.dumps(value, ensure_ascii=False)
    if isinstance(value, list):
        return "[" + ",".join(value_text(one) for one in value) + "]"
    if isinstance(value, dict):
        return "{" + ",".join(f"{key_text(key)}={value_text(one)}" for key, one in value.items()) + "}"
    return str(value)


def key_text(key):
    is_bare = key and all(sign.isascii() and (sign.isalnum() or sign in "_-") for sign in key)
    return key if is_bare else json.dumps(key, ensure_ascii=False)


def table_text(table, path=""):
    """The lines of a table: its values, and then its arrays of tables."""
    values, sections = "", ""
    for key, value in table.items():
        if isinstance(value, list) and value and all(isinstance(one, dict) for one in value):
            for one in value:
                sections += f"[[{path}{key}]]\n" + table_text(one, f"{path}{key}.")
        else:
            values += f"{key_text(key)}={value_text(value)}\n"
    return values + sections


# ---- tables to begin with

def top(**more):
    return {"regions": [1], "router": "FOLD", **more}


def msdb(**more):
    return {"name": "M", "fields": [["K", "C", 4], ["N", "P", 2]], **more}


def root(**more):
    return {"name": "R", "fields": [["K", "C", 4]], **more}


def child(name="T", parent="R", **more):
    return {"name": name, "parent": parent, "fields": [["K", "C", 2]], **more}


def sequential(**more):
    return {"name": "S", "parent": "R", "sequential": True, "fields": [["W", "X", 4]], **more}


def area(**more):
    return {"name": "A", "uows": 1, "base": 1, "overflow": 0, **more}


def dedb(**more):
    return {"name": "D", "randomizer": "RANGE", "ci": 512, "segment": [root()], "area": [area()], **more}


def with_msdb(**more):
    return top(msdb=[msdb(**more)])


def with_dedb(**more):
    return top(dedb=[dedb(**more)])


def with_segments(*segments, **more):
    """Segments, and an area that suits them."""
    slots = {"capacity": 1} if any(one.get("sequential") is True for one in segments) else {}
    return with_dedb(segment=list(segments), area=[area(**slots)], **more)


def changed(tables, path, value):
    """The same with another value at a path; none at all where it is `GONE`."""
    tables = copy.deepcopy(tables)
    table = tables
    for step in path[:-1]:
        table = table[step]
    if value is GONE:
        del table[path[-1]]
    else:
        table[path[-1]] = value
    return tables


# ---- the cases

OTHERS = [GONE, 1, "A", True, 1.5, [], [1], {}]
WHOLE = top(
    msdb=[msdb(dynamic=True, load=[["A1", "1"], ["A2", "-2"]])],
    dedb=[dedb(segment=[root(), sequential(), child()], area=[area(capacity=24)])],
)
PLACES = [
    (top(log_group=5, pool=5, tries=5, msdb=[msdb()]), []),
    (with_msdb(dynamic=False, load=[["A", "1"]]), ["msdb", 0]),
    (with_dedb(), ["dedb", 0]),
    (with_dedb(), ["dedb", 0, "segment", 0]),
    (with_segments(root(), child()), ["dedb", 0, "segment", 1]),
    (with_segments(root(), sequential()), ["dedb", 0, "segment", 1]),
    (with_dedb(), ["dedb", 0, "area", 0]),
    (top(dedb=[dedb(segment=[root(), sequential()], area=[area(capacity=1, copies=2)])]), ["dedb", 0, "area", 0]),
]


def at(tables, path):
    for step in path:
        tables = tables[step]
    return tables


def kinds_of_values():
    """Each key of each table with values of every kind, and without."""
    for tables, path in PLACES[:5]:
        for place, key in enumerate(at(tables, path)):
            for value in OTHERS[:5] + OTHERS[5 + place % 3:6 + place % 3]:
                yield changed(tables, path + [key], value)
    # Keys that stand in tables above too.
    for tables, path in PLACES[5:]:
        for key in at(tables, path):
            for value in [GONE, True, 1.5] if key not in ["capacity", "copies"] else OTHERS:
                yield changed(tables, path + [key], value)
    for value in ["", DATE, Raw("07:32:00"), [DATE]]:
        yield changed(top(), ["router"], value)
        yield changed(with_msdb(), ["msdb", 0, "name"], value)


def unknown_keys():
    for tables, path in PLACES[:5] + PLACES[6:7]:
        for keys in [["b", "a"], ["a", "Z"], ["Name"], [""], ["\u00e9", "z"]]:
            now = tables
            for key in keys:
                now = changed(now, path + [key], 1)
            yield now
        # An unknown key comes before a key that is missing or bad.
        first = next(iter(at(tables, path)))
        yield changed(changed(tables, path + ["zz"], 1), path + [first], GONE)
        yield changed(changed(tables, path + ["zz"], 1), path + [first], 1.5)


def numbers():
    slots = with_segments(root(), sequential())
    limits = [
        (top(), ["log_group"], 1, 1000), (top(), ["pool"], 1, 100_000), (top(), ["tries"], 0, 100),
        (with_dedb(), ["dedb", 0, "area", 0, "copies"], 1, 7), (slots, ["dedb", 0, "area", 0, "copies"], 1, 7),
        (with_dedb(), ["dedb", 0, "area", 0, "uows"], 1, 65_536),
        (with_dedb(), ["dedb", 0, "area", 0, "base"], 1, 1000),
        (with_dedb(), ["dedb", 0, "area", 0, "overflow"], 0, 1000),
        (slots, ["dedb", 0, "area", 0, "capacity"], 1, 1_000_000),
        (with_dedb(), ["dedb", 0, "area", 0, "capacity"], 0, 0),
        (with_dedb(), ["dedb", 0, "ci"], 512, 512),
    ]
    for tables, path, least, most in limits:
        for number in sorted({least - 1, least, most, most + 1, 2**63 - 1, -(2**63)}):
            yield changed(tables, path, number)
    for number in [256, 1023, 1024, 1025, 2048, 2560, 4095, 4096, 4097, 8192]:
        yield with_dedb(ci=number)
    for written in ["9223372036854775808", "-9223372036854775809", "0x10", "0b11", "1_000", "+5", "1e3", "inf", "nan"]:
        yield changed(top(), ["log_group"], Raw(written))
        yield changed(with_msdb(), ["msdb", 0, "zz"], Raw(written))


def new_keys():
    """Tries and copies: where they may stand, and in which order they are judged."""
    for key in ["tries", "copies"]:
        for tables, path in PLACES:
            yield changed(tables, path + [key], 1)
            yield changed(changed(tables, path + [key], 1), path + ["d" if key == "copies" else "zz"], 1)
    for written in [
        "0", "1", "7", "8", "100", "101", "-1", "0x1", "+1", "-0", "'1'", "1.0", "true", "[1]", "{}", "1e0", "007",
        "9223372036854775808",
    ]:
        yield top(tries=Raw(written))
        yield with_dedb(area=[area(copies=Raw(written))])
    for key in ["Tries", "TRIES", "trie", "triess", "tries ", "try"]:
        yield changed(top(tries=101), [key], 1)
    for key in ["Copies", "copie", "copiess", "copies "]:
        yield with_dedb(area=[area(copies=8, **{key: 1})])
    # Beside a fault of the key before or behind, in either order.
    for value in [-1, 101, "x"]:
        for key, other in [
            ("pool", 0), ("pool", "x"), ("log_group", 0), ("msdb", 1), ("dedb", 1), ("msdb", [{}]), ("dedb", [{}]),
            ("zz", 1), ("regions", [2]),
        ]:
            yield top(tries=value, **{key: other})
        yield top(pool=0, tries=value)
        yield changed(top(tries=value), ["router"], GONE)
    for value in [0, 8, "x"]:
        for more in [
            {"overflow": -1}, {"overflow": "x"}, {"capacity": 1}, {"capacity": "x"}, {"zz": 1}, {"uows": 65_536},
            {"uows": 0},
        ]:
            yield with_dedb(area=[area(copies=value, **more)])
        yield with_dedb(segment=[root(), sequential()], area=[area(capacity=0, copies=value)])
        yield with_dedb(area=[area(copies=value), area(name="B", copies=9)])
        yield with_dedb(area=[area(), area(name="B", copies=value)])
        yield with_dedb(area=[area(copies=value), area(name="A")])
        yield top(dedb=[dedb(area=[area(copies=value)]), dedb()])


def regions():
    for groups in [
        [1], [0], [16], [17], [-3], [1, 0], [1, 2], [2], [2, 1], [3, 1], [1, 5, 3], [1, 2, 4], [1, 1, 1], [17, "A"],
        ["A", 17],
        [1, True], [1, [1]], [1.0], [1] * 64, [1] * 65, [0] * 65, ["A"] * 65, list(range(1, 17)),
        list(range(16, 0, -1)),
        list(range(1, 18)), [16] * 64, list(range(2, 17)), [2**63 - 1],
    ]:
        yield changed(top(), ["regions"], groups)
        yield changed(changed(top(), ["regions"], groups), ["router"], 1)
    for key in ["router"]:
        for value in ["FOLD", "RANGE", "fold", "FOLD ", "RANG", "FOLDS"]:
            yield changed(top(), [key], value)
            yield changed(with_dedb(), ["dedb", 0, "randomizer"], value)


NAMES = [
    "A", "Z9", "ABCDEFGH", "ABCDEFGHI", "1A", "a", "Aa", "A_", "A ", " A", "A B", "\u00c4", "A\u0660", "IO", "STATUS",
    "FSAS",
    "KEY", "TRAN", "A2345678", "A-B", "\u0007", "A\n",
]


def names():
    for name in NAMES:
        yield with_msdb(name=name)
        yield with_msdb(fields=[["K", "C", 4], [name, "X", 1]])
    for name in NAMES[:6] + NAMES[14:17]:
        yield with_msdb(fields=[[name, "C", 4]])
        yield with_dedb(name=name)
        yield with_dedb(segment=[root(name=name)])
        yield with_dedb(area=[area(name=name)])
        yield with_segments(root(name=name), child(parent=name))


def fields():
    lengths = {"C": [1020, 1021, 1024, 1025, 65_536], "X": [8, 9], "H": [2, 3], "F": [3, 4, 5, 8], "P": [16, 17]}
    lengths |= {kind: [4] for kind in ["c", "", "CC", "D"]}
    for kind, borders in lengths.items():
        for length in [0, 1, 2] + borders:
            yield with_msdb(fields=[["K", "C", 4], ["F", kind, length]])
        for length in [1, 2, 4, 64, 65] if kind == "C" else borders[:1]:
            yield with_msdb(fields=[["K", kind, length]])
    rows = [
        1, [], [1], ["K"], [["K", "C"]], [["K", "C", 4, 1]], [["K", "C", 4], 1], [["K", "C", 4], []], [["K", "C", "4"]],
        [["K", 1, 4]], [[1, "C", 4]], [["K", "C", 4.0]], [["K", "C", True]], [{"a": 1}],
        [["K", "C", 4], ["K", "C", 4]], [["K", "C", 4], ["L", "X", 1], ["L", "X", 1]],
        [["K", "C", 4], ["K", "C", 1021]],
        [["K", "C", 4], ["K", "C", 1020]], [["K", "C", 64], ["F", "C", 960]], [["K", "C", 64], ["F", "C", 961]],
        [["K", "X", 4], ["K", "X", 9]], [["K", "C", 4], ["IO", "C", 4], ["K", "C", 4]],
        [["B", "C", 1], ["A", "C", 1], ["A", "C", 1], ["B", "C", 1]],
    ]
    for row in rows:
        yield with_msdb(fields=row)
    for row in rows[1:22:3]:
        yield with_dedb(segment=[root(fields=row)])
    for count, lengths in [(64, [16, 17]), (65, [17])]:
        for length in lengths:
            row = [[f"F{place}", "C", length] for place in range(count)]
            yield with_msdb(fields=row)
    yield with_msdb(fields=[[f"F{place}", "C", 1] for place in range(64)] + [["F", "C", 0]])


TWO = [["K", "C", 4], ["N", "P", 2]]
LOADS = [
    [], [[]], [1], [["A"]], [["A", "1", "2"]], [["A", 1]], [[1, "1"]], [["ABCD", "1"]], [["ABCDE", "1"]],
    [["ABCD ", "1"]],
    [["\u0007", "1"]], [["~ ! ", "1"]], [["\u007f", "1"]], [["\u00e9", "1"]], [["A", ""]], [["A", "-"]], [["A", "+1"]],
    [["A", "1 "]], [["A", " 1"]], [["A", "0x1"]], [["A", "1.0"]], [["A", "999"]], [["A", "1000"]], [["A", "-999"]],
    [["A", "-1000"]], [["A", "-0"]], [["A", "0000000000000000000000000000000000999"]], [["A", "\u0661"]], [["", "1"]],
    [["A", "1"], ["B", "1"], ["A  ", "2"]], [["A", "1"], ["A", "1"], ["B", "x"]], [["", "1"], ["  ", "1"]],
    [["A", "1"], ["B", "1"], ["B", "1"], ["A", "1"]], [["A", "1"], ["a", "1"]], [["A", "1"], [" A", "1"]],
    [["A", "1"], "A"],
    [["A", "1"], {"a": 1}],
]


def loads():
    for load in LOADS:
        yield with_msdb(fields=TWO, load=load)
    borders = [("X", length, [-1, 0, 256**length - 1, 256**length]) for length in range(1, 9)]
    borders += [("H", 2, [-32_769, -32_768, 32_767, 32_768]), ("F", 4, [-(2**31) - 1, -(2**31), 2**31 - 1, 2**31])]
    tops = [(length, 10 ** (2 * length - 1)) for length in [1, 2, 9, 10, 16]]
    borders += [("P", length, [-top, 1 - top, top - 1, top]) for length, top in tops]
    for kind, length, numbers in borders:
        for number in numbers:
            yield with_msdb(fields=[["K", "C", 1], ["N", kind, length]], load=[["A", str(number)]])
    yield with_msdb(fields=[["K", "C", 64]], load=[["A" * 64]])
    yield with_msdb(fields=[["K", "C", 64]], load=[["A" * 65]])


def segments():
    other = sequential(name="S2")
    for types in [
        [root(), child()], [root(), child(parent="T")], [root(), child(parent="X")], [root(), child(parent=1)],
        [root(), child(parent="r")], [root(), {"name": "T", "fields": [["K", "C", 2]]}], [root(parent="R")],
        [root(parent="")],
        [root(parent=1)], [root(sequential=False)], [root(sequential=True)], [root(sequential=1)],
        [root(), sequential()],
        [root(), sequential(sequential="true")], [root(), sequential(sequential=False)],
        [root(), child(), sequential()],
        [root(), sequential(), other], [root(), sequential(), child(parent="S")], [root(), sequential(), child()],
        [root(), sequential(), child(), child("U", "T")], [root(), child(), child("U", "T", sequential=True)],
        [root(), child(), child("T")], [root(), child("R")], [root(), sequential(name="R")],
        [root(), sequential(name="KEY")],
        [root(), sequential(parent="S")], [root(), sequential(parent="X")], [root(), child(fields=[["K", "X", 2]])],
        [root(), sequential(fields=[["W", "C", 65]])], [root(), child(fields=[["K", "C", 65]])],
        [root(fields=[["K", "C", 65]])],
        [root(), child(fields=[["K", "C", 64]])], [root(), child(sequential=True), child("U")],
        [root(), child(sequential="x")],
        [root(fields=[["K", "X", 4]], sequential=1)], [root(fields=[["K", "X", 4]], sequential=True)],
        [root(), child(parent="X", sequential=1)], [root(), child("U"), child("V", "U", sequential=True)],
    ]:
        yield with_segments(*types)
    for levels in [4, 5]:
        line = [root()] + [child(f"L{place}", "R" if place == 1 else f"L{place - 1}") for place in range(1, levels)]
        yield with_segments(*line)
        yield with_segments(*(line[:levels // 2] + [child("X"), child("Y", "X")] + line[levels // 2:]))
    for count in [15, 16]:
        yield with_segments(root(), *(child(f"C{place}") for place in range(1, count)))
        yield with_segments(root(), sequential(), *(child(f"C{place}") for place in range(2, count)))


def long_fields(length, first):
    """Fields with this length in all, the first of a kind and length."""
    row = [first]
    left = length - first[2]
    while left > 0:
        row.append([f"F{len(row)}", "C", min(left, 1024)])
        left -= 1024
    return row


def elements():
    for ci in [512, 1024, 2048, 4096]:
        most = ci - 32
        for more in [0, 1]:
            key = ["K", "C", 4]
            yield with_segments(root(fields=long_fields(most - 14 + more, key)), ci=ci)
            if ci <= 1024:
                yield with_segments(root(fields=long_fields(most - 22 + more, key)), sequential(), ci=ci)
                yield with_segments(root(fields=long_fields(most - 32 + more, key)), sequential(), child(), ci=ci)
                three = [child(), child("U"), child("V", "U")]
                yield with_segments(root(fields=long_fields(most - 34 + more, key)), *three, ci=ci)
                yield with_segments(root(), child(fields=long_fields(most - 14 + more, key)), ci=ci)
                yield with_segments(root(), child(fields=long_fields(most - 24 + more, key)), child("U", "T"), ci=ci)
            yield with_segments(root(), sequential(fields=long_fields(most - 16 + more, ["W", "C", 4])), ci=ci)
    # The first type that doesn't fit, before a fault of an area and behind one of the last type.
    long = root(fields=long_fields(500, ["K", "C", 4]))
    yield with_segments(long, child(fields=long_fields(600, ["K", "C", 4])))
    longer = [child(name, fields=long_fields(length, ["K", "C", 4])) for name, length in [("T", 600), ("U", 700)]]
    yield with_segments(root(), *longer)
    yield with_dedb(segment=[long], area=[area(uows=0)])
    yield with_dedb(segment=[long, child("R")], area=[area(uows=0)])
    yield with_dedb(segment=[long], area=[{"zz": 1}])


def areas():
    def of(*sizes, **more):
        keys = ["uows", "base", "overflow"]
        rows = [area(name=f"A{place}", **dict(zip(keys, row))) for place, row in enumerate(sizes)]
        return with_dedb(area=rows, **more)

    yield with_dedb(area=[area(), area()])
    yield with_dedb(area=[area(), area(name="B")])
    yield with_dedb(area=[area(), area(name="A", uows=0)])
    for count in [17]:
        yield of(*[(1, 1, 0)] * count)
    for last in [1, 2]:
        yield of((32_768, 1, 0), (32_767 + last, 1, 0))
        yield of((65, 1000, 0), (536 + last, 1, 0))
        # The greatest number of intervals, one less and one more.
        yield of((523, 1, 999), (1, 1000, 285 + last))
        yield of((262, 1, 999), (261, 1, 999), (1, 1000, 284 + last))
    yield of((600, 1, 1000))
    yield of(*[(65_536, 1, 0)] * 17)
    for capacity in [24, 25, 48, 49, 24 * 285, 24 * 285 + 1, 24 * 286, 24 * 286 + 1, 24 * 287, 24 * 287 + 1]:
        yield with_dedb(
            segment=[root(), sequential()],
            area=[area(uows=523, base=1, overflow=999, capacity=1),
            area(name="B", uows=1, base=998, capacity=capacity)],
        )
    first = dedb(area=[area(uows=300, base=1, overflow=999)])
    for last in [0, 1, 2]:
        second = dedb(name="E", area=[area(name="B", uows=224, base=1, overflow=999), area(name="C", base=284 + last)])
        yield top(dedb=[first, second])
        yield top(dedb=[first, second, {"zz": 1}])


def databases():
    for count in [32, 33]:
        yield top(msdb=[{"name": f"M{place}", "fields": [["K", "C", 1]]} for place in range(count)])
    for count in [16, 17]:
        yield top(dedb=[dedb(name=f"D{place}", area=[area(name=f"A{place}")]) for place in range(count)])
    yield top(msdb=[{}] * 33, dedb=[{}] * 17)
    yield top(msdb=[{}] * 32, dedb=[{}] * 17)
    yield top(msdb=[{}], dedb=[{}])
    yield top(msdb=[msdb(), msdb()])
    yield top(msdb=[msdb(), msdb(name="N"), msdb(name="M", fields=1)])
    yield top(msdb=[msdb()], dedb=[dedb(name="M")])
    yield top(dedb=[dedb(), dedb(area=[area(name="B")])])
    yield top(dedb=[dedb(), dedb(name="E")])
    yield top(dedb=[dedb(), dedb(name="E", area=[area(name="B")])])
    yield top(dedb=[dedb(), dedb(name="E", segment=[root(name="D")], area=[area(name="E")])])
    yield WHOLE


FAULTS = [
    (["zz"], 1), (["regions"], [2]), (["router"], "x"), (["log_group"], 0), (["pool"], "x"), (["tries"], 101),
    (["msdb", 0, "zz"], 1), (["msdb", 0, "name"], GONE), (["msdb", 0, "fields"], []), (["msdb", 0, "dynamic"], 1),
    (["msdb", 0, "load"], [["A", "1"], ["A", "1"]]), (["dedb", 0, "yy"], 1), (["dedb", 0, "name"], "M"),
    (["dedb", 0, "randomizer"], 1), (["dedb", 0, "ci"], 100), (["dedb", 0, "segment", 0, "zz"], 1),
    (["dedb", 0, "segment", 0, "name"], "x"), (["dedb", 0, "segment", 0, "fields"], [["K", "C", 500]]),
    (["dedb", 0, "segment", 0, "fields", 0], ["K", "X", 4]), (["dedb", 0, "segment", 1, "fields"], [["W", "C", 500]]),
    (["dedb", 0, "segment", 1, "parent"], "T"), (["dedb", 0, "segment", 2, "sequential"], True),
    (["dedb", 0, "segment", 2, "parent"], GONE), (["dedb", 0, "area", 0, "xx"], 1), (["dedb", 0, "area", 0, "uows"], 0),
    (["dedb", 0, "area", 0, "capacity"], 0), (["dedb", 0, "area", 0, "copies"], 0),
    (["dedb", 0, "area", 0, "base"], 1001),
]


def pairs():
    """Two faults in one text, the first before the second and behind it."""
    draws = Draws(31)
    for place, (path, value) in enumerate(FAULTS):
        for other_path, other in FAULTS[place + 1:]:
            if path[:len(other_path)] == other_path or other_path[:len(path)] == path:
                continue
            is_one_table = len(path) == len(other_path) and path[:-1] == other_path[:-1]
            if is_one_table and draws.below(6) == 0 or draws.below(20) < 1:
                yield changed(changed(WHOLE, path, value), other_path, other)


def raw_texts():
    yield from [
        b"", b"\n", b"#", b"regions = ", b"a = 99999999999999999999", b"a = '\xff'\n", b"# \xff\n", b"# \x00\n", b"[",
        b"[[msdb]",
        b"a = 1\na = 2\n", b"[a]\n[a]\n", b"= 1\n", b"a\n", b"a = 01\n", b"a = \"\\q\"\n", b"a = 'b\n",
        b"a = 1 b = 2\n", b"a = [1\n",
        b"a = {b = 1\n", b"\xc0\x80 = 1\n", b"regions = [1]\r\nrouter = 'FOLD'\r\n", b"router = 'FOLD'\nregions = [1,]",
        b"regions = [1] # one\n\n\nrouter = \"\\u0046OLD\"\n", b"\"regions\" = [1]\n'router' = '''FOLD'''\n",
        b"regions = [\n  1, # first\n  1\n]\nrouter = \"FOLD\"\n", b"regions.a = 1\n", b"a.b = 1\nregions = [1]\n",
        b"regions = [1]\nrouter = \"FOLD\"\nmsdb = [{name = \"M\", fields = [[\"K\", \"C\", 1]]}]\n",
        b"regions = [1]\nrouter = \"FOLD\"\n[msdb]\nname = \"M\"\n", b"[[regions]]\n",
        b"regions = [1]\nrouter = \"FOLD\"\nmsdb = 'x'\nmsdb = 1\n",
        b"#" * 1_000_000, b"#" * 1_000_001,
    ]


EXIT_TABLES = [
    top(), top(router="RANGE"), with_dedb(), with_dedb(randomizer="FOLD"),
    top(dedb=[dedb(), dedb(name="E", randomizer="FOLD", area=[area(name="B")])]),
    top(router="RANGE", dedb=[dedb(randomizer="FOLD"), dedb(name="E", area=[area(name="B")])]),
    changed(with_dedb(), ["router"], 1), with_dedb(area=[area(uows=0)]),
]


def case(text, digits="1111"):
    flags = [digit == "1" for digit in digits]
    routers = [kind for kind, is_there in zip(definitions.KINDS, flags) if is_there]
    spreaders = [kind for kind, is_there in zip(definitions.KINDS, flags[2:]) if is_there]
    return block(digits, definitions.fault_of(text, routers, spreaders), text)


def cases():
    makers = [
        kinds_of_values, unknown_keys, numbers, new_keys, regions, names, fields, loads, segments, elements, areas,
        databases, pairs,
    ]
    for text in raw_texts():
        yield case(text)
    for maker in makers:
        for tables in maker():
            yield case(table_text(tables).encode())
    for tables in EXIT_TABLES:
        for number in range(16) if tables in EXIT_TABLES[:2] + EXIT_TABLES[5:6] else [0, 3, 6, 9, 12]:
            yield case(table_text(tables).encode(), f"{number:04b}")
    for text in [b"regions = ", table_text(top(msdb=[{}])).encode(), b""]:
        yield case(text, "0000")


def lines():
    yield "Definitions texts: `=== EXITS: ok`, or with the first fault."
    yield from dict.fromkeys(cases())
