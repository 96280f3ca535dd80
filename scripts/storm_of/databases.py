"""Main storage databases as plain dictionaries, the calls on them, and how a queue of changes settles."""
from vectors_of import numbers
from vectors_of.arguments import COMPARE, on_characters, on_number


class Database:
    """A database of the definitions: its fields as triples of name, kind and length, and the rows that are loaded."""

    def __init__(self, name, is_dynamic, fields, load):
        self.name, self.is_dynamic, self.fields, self.load = name, is_dynamic, fields, load

    def text(self):
        """Its table in a text of definitions."""
        fields = ", ".join(f'["{name}", "{kind}", {length}]' for name, kind, length in self.fields)
        load = ", ".join("[" + ", ".join(f'"{value}"' for value in row) + "]" for row in self.load)
        dynamic = "dynamic = true\n" if self.is_dynamic else ""
        return f'[[msdb]]\nname = "{self.name}"\n{dynamic}fields = [{fields}]\nload = [{load}]\n'

    def key_length(self):
        return self.fields[0][2]

    def key(self, segment):
        return segment[:self.key_length()]

    def span(self, name):
        """The kind of a field, where it begins and where it ends, or None."""
        at = 0
        for other, kind, length in self.fields:
            if other == name:
                return kind, at, at + length
            at += length
        return None

    def blank(self):
        """A new segment: blanks in characters, and else zero."""
        return b"".join(b" " * length if kind == "C" else numbers.write(kind, length, 0)
                        for _, kind, length in self.fields)

    def start(self):
        """The loaded segments by their keys."""
        found = {}
        for row in self.load:
            segment = b"".join(
                value.encode().ljust(length) if kind == "C" else numbers.write(kind, length, int(value))
                for value, (_, kind, length) in zip(row, self.fields))
            found[self.key(segment)] = segment
        return found

    def show(self, segments):
        """The lines that show its segments."""
        yield f"msdb {self.name} {len(segments)}"
        for key in sorted(segments):
            yield "  " + " ".join(f"{name}={shown(segments[key], self.span(name))}" for name, _, _ in self.fields)


def shown(segment, span):
    """The field of a segment as a text."""
    kind, at, end = span
    if kind == "C":
        return segment[at:end].rstrip(b" ").decode()
    return str(numbers.read(kind, segment[at:end]))


def tried(base, segment, argument):
    """The letter of an argument on a segment, the segment behind it, and the bytes of its field."""
    name, op, operand = argument
    if op not in COMPARE and op not in "+-=":
        return "A", segment, b""
    span = base.span(name)
    if span is None:
        return "H", segment, b""
    kind, at, end = span
    field = segment[at:end]
    if kind == "C":
        letter, changed = on_characters(field, at == 0, op, operand)
    else:
        letter, changed = on_number(field, kind, op, operand)
    if letter != " ":
        return letter, segment, field
    return letter, segment[:at] + changed + segment[end:], field


class Work:
    """What a transaction has of its own: its positions, its holds, and the queue of what it changes."""

    def __init__(self):
        self.positions, self.holds, self.queue = {}, {}, []

    def has_moved(self, number, key):
        """Whether an insert or a delete of this key is queued."""
        return any(kind in ["insert", "delete"] and (number, key) == place for kind, place, _ in self.queue)

    def resources(self):
        """The segments of queued field calls, each once."""
        return sorted({place for kind, place, _ in self.queue if kind == "fields"})


class Answer:
    def __init__(self, status, segment=None, letters="", looks=False):
        self.status, self.segment, self.letters, self.looks = status, segment, letters, looks


def needed(bases, work, call):
    """The segment that a call has to hold before it is answered, or None."""
    word, number, given = call[:3]
    if word == "GHU" and given is not None:
        return number, given
    if word == "ISRT" and bases[number].is_dynamic:
        key = bases[number].key(given)
        return None if work.has_moved(number, key) else (number, key)
    return None


def answer(bases, state, work, call):
    """The answer to a call whose segment is held, if it needs one; `work` goes on."""
    word, number = call[:2]
    base, segments = bases[number], state[number]
    hold = work.holds.pop(number, None)
    if word in ["GU", "GN", "GHU", "GHN", "GNP", "GHNP"]:
        return get(segments, work, word, number, call[2])
    if word == "FLD":
        return field_call(base, segments, work, number, call[2], call[3])
    if word == "REPL":
        if hold is None:
            return Answer("DJ")
        if work.has_moved(number, hold):
            return Answer("XP")
        if base.key(call[2]) != hold:
            return Answer("DA")
        work.queue.append(("replace", (number, hold), call[2]))
        return Answer("  ")
    if not base.is_dynamic:
        return Answer("AM")
    if word == "DLET":
        if hold is None:
            return Answer("DJ")
        if work.has_moved(number, hold):
            return Answer("XP")
        work.queue.append(("delete", (number, hold), None))
        return Answer("  ")
    key = base.key(call[2])
    if work.has_moved(number, key):
        return Answer("XP")
    if key in segments:
        return Answer("II")
    work.queue.append(("insert", (number, key), call[2]))
    return Answer("  ")


def get(segments, work, word, number, key):
    if word in ["GHN", "GNP", "GHNP"] or word == "GHU" and key is None:
        return Answer("AM")
    looks = word != "GHU"
    if word == "GN":
        position = work.positions.get(number)
        found = [other for other in sorted(segments) if position is None or other > position][:1]
    elif key is None:
        found = sorted(segments)[:1]
    else:
        found = [key] if key in segments else []
    if not found:
        return Answer("GB" if word == "GN" else "GE", looks=looks)
    work.positions[number] = found[0]
    if word == "GHU":
        work.holds[number] = found[0]
    return Answer("  ", segment=segments[found[0]], looks=looks)


def field_call(base, segments, work, number, key, arguments):
    if work.has_moved(number, key):
        return Answer("XP")
    if key not in segments:
        return Answer("GE", looks=True)
    segment, letters = segments[key], ""
    for argument in arguments:
        letter, segment, _ = tried(base, segment, argument)
        letters += letter
    if letters.strip():
        return Answer("FE", letters=letters, looks=True)
    work.queue.append(("fields", (number, key), arguments))
    return Answer("  ", letters=letters, looks=True)


def settled(bases, state, work):
    """The queue on a state: the new state and no failure, or that state and the call, the argument and the bytes."""
    new = [dict(segments) for segments in state]
    for call, (kind, (number, key), given) in enumerate(work.queue):
        if kind != "fields":
            new[number].pop(key, None)
            if kind != "delete":
                new[number][key] = given
            continue
        if key not in new[number]:
            return state, (call, 65_535, b"")
        for place, argument in enumerate(given):
            letter, new[number][key], field = tried(bases[number], new[number][key], argument)
            if letter != " ":
                return state, (call, place, field)
    return new, None


def items(work, state):
    """What the entry of a queue has of the state behind it: each segment that it names, once."""
    places = sorted({place for _, place, _ in work.queue})
    return [("segment", number, key, state[number].get(key, b"")) for number, key in places]
