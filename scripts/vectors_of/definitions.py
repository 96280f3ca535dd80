"""What a definitions text is: right, or its first fault."""
import re
import tomllib

LONGEST = 1_000_000
KINDS = ["FOLD", "RANGE"]
LENGTHS = {"C": range(1, 1025), "X": range(1, 9), "H": range(2, 3), "F": range(4, 5), "P": range(1, 17)}
RANGES = {"X": lambda n: (0, 256**n - 1), "P": lambda n: (1 - 10 ** (2 * n - 1), 10 ** (2 * n - 1) - 1)}
KEYS = {
    "top": ["regions", "router", "log_group", "pool", "tries", "msdb", "dedb"],
    "msdb": ["name", "fields", "dynamic", "load"],
    "dedb": ["name", "randomizer", "ci", "segment", "area"],
    "segment": ["name", "fields", "parent", "sequential"],
    "area": ["name", "uows", "base", "overflow", "capacity", "copies"],
}


class Fault(Exception):
    """The first fault of a text, as it is told."""


def bad(key):
    return Fault(f"bad field {key}")


def is_whole(value):
    return isinstance(value, int) and not isinstance(value, bool)


def is_name(value):
    return isinstance(value, str) and re.fullmatch("[A-Z][A-Z0-9]{0,7}", value, re.ASCII) is not None


def only(kind, table):
    unknown = [key for key in table if key not in KEYS[kind]]
    if unknown:
        raise Fault(f"unknown {min(unknown, key=str.encode)}")


def needed(table, key):
    if key not in table:
        raise Fault(f"missing {key}")
    return table[key]


def within(key, value, least, most):
    if not is_whole(value):
        raise bad(key)
    if not least <= value <= most:
        raise Fault(f"{key} out of limit: {value}")
    return value


def at_most(key, count, most, least=0):
    if not least <= count <= most:
        raise Fault(f"{key} out of limit: {count}")


def new_name(table, known, refused=()):
    name = needed(table, "name")
    if not is_name(name) or name in refused:
        raise bad("name")
    if name in known:
        raise Fault(f"twice {name}")
    known.append(name)
    return name


def exit_at(table, key):
    kind = needed(table, key)
    if kind not in KINDS:
        raise bad(key)
    return kind


def tables(table, key):
    found = needed(table, key)
    if not isinstance(found, list) or not all(isinstance(one, dict) for one in found):
        raise bad(key)
    return found


# ---- the whole text

def fault_of(text, routers=KINDS, spreaders=KINDS):
    """What is told of a text: `ok`, or its first fault."""
    try:
        read(text, routers, spreaders)
        return "ok"
    except Fault as fault:
        return str(fault)


def document(text):
    try:
        found = tomllib.loads(text.decode("utf-8"))
    except (UnicodeDecodeError, tomllib.TOMLDecodeError):
        raise Fault("not TOML") from None
    if not numbers_fit(found):
        raise Fault("not TOML")
    return found


def numbers_fit(value):
    if isinstance(value, dict):
        return all(numbers_fit(one) for one in value.values())
    if isinstance(value, list):
        return all(numbers_fit(one) for one in value)
    return not is_whole(value) or -(2**63) <= value < 2**63


def read(text, routers, spreaders):
    if len(text) > LONGEST:
        raise Fault("too long")
    top = document(text)
    only("top", top)
    regions(top)
    router = exit_at(top, "router")
    within("log_group", top.get("log_group", 100), 1, 1000)
    within("pool", top.get("pool", 1000), 1, 100_000)
    within("tries", top.get("tries", 0), 0, 100)
    msdbs = tables(top, "msdb") if "msdb" in top else []
    dedbs = tables(top, "dedb") if "dedb" in top else []
    at_most("msdb", len(msdbs), 32)
    at_most("dedb", len(dedbs), 16)
    databases = []
    for table in msdbs:
        msdb(table, databases)
    kinds, areas, intervals = [], [], 0
    for table in dedbs:
        kind, intervals = dedb(table, databases, areas, intervals)
        kinds.append(kind)
    for lacking in [k for k in [router] if k not in routers] + [k for k in kinds if k not in spreaders]:
        raise Fault(f"no exit {lacking}")


def regions(top):
    groups = needed(top, "regions")
    if not isinstance(groups, list):
        raise bad("regions")
    at_most("regions", len(groups), 64, 1)
    for group in groups:
        within("regions", group, 1, 16)
    for group in range(1, max(groups)):
        if group not in groups:
            raise Fault(f"regions out of limit: {group}")


# ---- fields

def layout(table, needs_key, longest=None):
    """The fields of a table, as kinds and lengths."""
    rows = needed(table, "fields")
    if not isinstance(rows, list):
        raise bad("fields")
    for row in rows:
        if not isinstance(row, list) or len(row) != 3 or not is_field(*row):
            raise bad("fields")
    if rows and needs_key and not (rows[0][1] == "C" and rows[0][2] <= 64):
        raise bad("fields")
    at_most("fields", len(rows), 64, 1)
    total = sum(row[2] for row in rows)
    if longest is not None:
        at_most("fields", total, longest)
    for place, row in enumerate(rows):
        if row[0] in [other[0] for other in rows[:place]]:
            raise Fault(f"twice {row[0]}")
    return [(kind, length) for _, kind, length in rows]


def is_field(name, kind, length):
    if not is_name(name) or name in ["IO", "STATUS", "FSAS"]:
        return False
    return isinstance(kind, str) and kind in LENGTHS and is_whole(length) and length in LENGTHS[kind]


def fits(kind, length, text):
    """Whether a field may be loaded from a text."""
    if kind == "C":
        return len(text) <= length and all(" " <= sign <= "~" for sign in text)
    if not re.fullmatch("-?[0-9]+", text, re.ASCII):
        return False
    least, most = RANGES.get(kind, lambda n: (-(256**n) // 2, 256**n // 2 - 1))(length)
    return least <= int(text) <= most


# ---- databases

def flag(table, key):
    value = table.get(key, False)
    if not isinstance(value, bool):
        raise bad(key)
    return value


def msdb(table, databases):
    only("msdb", table)
    new_name(table, databases)
    fields = layout(table, True, 1024)
    flag(table, "dynamic")
    rows = table.get("load", [])
    if not isinstance(rows, list):
        raise bad("load")
    for row in rows:
        if not isinstance(row, list) or len(row) != len(fields):
            raise bad("load")
        for (kind, length), text in zip(fields, row):
            if not isinstance(text, str) or not fits(kind, length, text):
                raise bad("load")
    keys = [row[0].rstrip(" ") for row in rows]
    for place, key in enumerate(keys):
        if key in keys[:place]:
            raise Fault(f"twice {key}")


def dedb(table, databases, areas, intervals):
    """Its randomizer, and the intervals of all areas so far."""
    only("dedb", table)
    new_name(table, databases)
    kind = exit_at(table, "randomizer")
    ci = needed(table, "ci")
    if not is_whole(ci):
        raise bad("ci")
    if ci not in [512, 1024, 2048, 4096]:
        raise Fault(f"ci out of limit: {ci}")
    segment_tables = tables(table, "segment")
    at_most("segment", len(segment_tables), 2**63, 1)
    area_tables = tables(table, "area")
    at_most("area", len(area_tables), 2**63, 1)
    types = []
    for one in segment_tables:
        segment(one, types)
    elements(types, ci)
    slot = next((16 + one["length"] for one in types if one["sequential"]), None)
    sizes = [area(one, areas, slot is not None) for one in area_tables]
    at_most("segment", len(types), 15)
    at_most("segment", max(one["level"] for one in types), 4)
    at_most("area", len(sizes), 16)
    at_most("area", sum(uows * base for uows, base, _, _ in sizes), 65_536)
    for uows, base, overflow, capacity in sizes:
        slots = -(-capacity // ((ci - 32) // slot)) if slot else 0
        intervals += 1 + uows * (base + overflow) + slots
    at_most("area", intervals, 524_288)
    return kind, intervals


def segment(table, types):
    only("segment", table)
    name = new_name(table, [one["name"] for one in types], ["KEY"])
    fields = layout(table, table.get("sequential") is not True)
    parent = None
    if not types:
        if "parent" in table:
            raise bad("parent")
    else:
        names = [one["name"] for one in types]
        wanted = needed(table, "parent")
        if wanted not in names or types[names.index(wanted)]["sequential"]:
            raise bad("parent")
        parent = names.index(wanted)
    sequential = flag(table, "sequential")
    if sequential and (len(types) != 1 or parent != 0):
        raise bad("sequential")
    level = 1 if parent is None else types[parent]["level"] + 1
    types.append({
        "name": name, "length": sum(length for _, length in fields), "parent": parent,
        "sequential": sequential, "level": level,
    })


def elements(types, ci):
    """Refuses a segment whose element or slot doesn't fit an interval."""
    for place, one in enumerate(types):
        children = [other for other in types if other["parent"] == place and not other["sequential"]]
        serial = 8 if place == 0 and any(other["sequential"] for other in types) else 0
        length = 4 + 10 + serial + 10 * len(children) + one["length"]
        size = 16 + one["length"] if one["sequential"] else (length + 3) // 4 * 4
        at_most("fields", size, ci - 32)


def area(table, areas, has_slots):
    """Its UOWs, base and overflow intervals, and its capacity."""
    only("area", table)
    new_name(table, areas)
    uows = within("uows", needed(table, "uows"), 1, 65_536)
    base = within("base", needed(table, "base"), 1, 1000)
    overflow = within("overflow", needed(table, "overflow"), 0, 1000)
    capacity = table.get("capacity", 0)
    if not is_whole(capacity) or (capacity != 0) != has_slots:
        raise bad("capacity")
    if has_slots:
        within("capacity", capacity, 1, 1_000_000)
    within("copies", table.get("copies", 1), 1, 7)
    return uows, base, overflow, capacity
