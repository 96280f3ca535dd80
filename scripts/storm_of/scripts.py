"""Scripts of transactions, run from the top: each call goes out, and its answer comes in."""
import re

from vectors_of import numbers

TOKEN = re.compile(r"'[^']*'|#\d|IO\.[A-Z][A-Z0-9]*|-?\d+|[A-Z][A-Z0-9]*|[()=+*&-]")
GREATEST = 10**31 - 1


class Rolled(Exception):
    """The script ends with a rollback code."""


class Left(Exception):
    """A loop is left."""


def rolled():
    raise Rolled(99)


def read(text):
    """The scripts of a text that is known to be right, by their names."""
    found, open_blocks = {}, []
    for line in text.splitlines():
        words = TOKEN.findall(line)
        if words[0] == "TRAN":
            open_blocks = [found.setdefault(words[1].encode(), [])]
        elif words[0] == "ELSE":
            open_blocks[-2][-1][2] = open_blocks[-1] = []
        elif words[0] == "END":
            open_blocks.pop()
        else:
            statement = [words, [], []]
            open_blocks[-1].append(statement)
            if words[0] in ["IF", "REPEAT"]:
                open_blocks.append(statement[1])
    return found


def number_in(text):
    return int(text) if re.fullmatch(rb"-?[0-9]{1,31}", text) else rolled()


def text_of(number):
    return str(number).encode() if abs(number) <= GREATEST else rolled()


def combined(first, op, second):
    if op == "&":
        return first + second if len(first + second) <= 1024 else rolled()
    a, b = number_in(first), number_in(second)
    return text_of({"+": a + b, "-": a - b, "*": a * b}[op])


def holds(first, word, second):
    if word in ["EQ", "NE"]:
        return (first.rstrip(b" ") == second.rstrip(b" ")) == (word == "EQ")
    a, b = number_in(first), number_in(second)
    return {"LT": a < b, "LE": a <= b, "GT": a > b, "GE": a >= b}[word]


class Script:
    """A script at work on the text of a message, over databases."""

    def __init__(self, statements, text, bases):
        self.statements, self.text, self.bases = statements, text, bases
        self.names = [base.name for base in bases]
        self.variables, self.status, self.letters = {}, b"", b""
        # What the last get that found something showed, of all databases and of each.
        self.shown, self.shown_of = None, {}

    def run(self):
        """Gives calls, takes answers, and comes to a reply or a rollback code."""
        try:
            end = yield from self.block(self.statements)
        except Rolled as roll:
            return "roll", roll.args[0]
        return ("reply", b"") if end is None else end

    def block(self, statements):
        for words, first, second in statements:
            word = words[0]
            if word == "SET":
                value = self.value(words[2])
                self.variables[words[1]] = combined(value, words[3], self.value(words[4])) if words[3:] else value
            elif word == "IF":
                branch = first if holds(self.value(words[1]), words[2], self.value(words[3])) else second
                end = yield from self.block(branch)
                if end is not None:
                    return end
            elif word == "REPEAT":
                end = yield from self.loop(int(words[1]), first)
                if end is not None:
                    return end
            elif word == "BREAK":
                raise Left
            elif word == "ROLB":
                raise Rolled(int(words[1]))
            elif word == "REPLY":
                reply = b"".join(self.value(one) for one in words[1:])
                return ("reply", reply) if re.fullmatch(rb"[ -~]{0,1000}", reply) else rolled()
            else:
                yield from self.call(words)
        return None

    def loop(self, count, statements):
        for _ in range(count):
            try:
                end = yield from self.block(statements)
            except Left:
                return None
            if end is not None:
                return end
        return None

    def value(self, word):
        """The text that an operand stands for."""
        if word[0] == "'":
            return word[1:-1].encode()
        if word[0] == "#":
            words = re.findall(rb"[^ \t]+", self.text)
            place = int(word[1])
            return self.text if place == 0 else words[place - 1] if place <= len(words) else b""
        if word.startswith("IO."):
            return self.field(word[3:])
        if re.fullmatch(r"-?\d+", word):
            return text_of(int(word))
        known = {"STATUS": self.status, "FSAS": self.letters}
        return known[word] if word in known else self.variables.get(word, b"")

    def field(self, name):
        if self.shown is None:
            rolled()
        number, segment = self.shown
        span = self.bases[number].span(name)
        if span is None:
            rolled()
        kind, at, end = span
        if kind == "C":
            return segment[at:end].rstrip(b" ")
        found = numbers.read(kind, segment[at:end])
        return text_of(found) if found is not None else rolled()

    def key(self, base, word):
        key = self.value(word)
        return key.ljust(base.key_length()) if len(key) <= base.key_length() else rolled()

    def filled(self, base, segment, words):
        """A segment with these fields set."""
        for name, _, operand in zip(words[::3], words[1::3], words[2::3]):
            value, span = self.value(operand), base.span(name)
            if span is None:
                rolled()
            kind, at, end = span
            if kind == "C":
                field = value.ljust(end - at) if len(value) <= end - at else rolled()
            else:
                field = numbers.write(kind, end - at, number_in(value))
            segment = segment[:at] + (field if field is not None else rolled()) + segment[end:]
        return segment

    def call(self, words):
        """Makes the call of a statement, and takes its answer in."""
        word, number = words[0], self.names.index(words[1])
        base = self.bases[number]
        if word == "FLD":
            given = words[6:]
            arguments = [(name, op, self.value(operand))
                         for name, op, operand in zip(given[::3], given[1::3], given[2::3])]
            call = (word, number, self.key(base, words[4]), arguments)
        elif word == "ISRT":
            call = (word, number, self.filled(base, base.blank(), words[2:]))
        elif word == "REPL":
            segment = self.shown_of.get(number)
            call = (word, number, self.filled(base, segment, words[2:]) if segment is not None else rolled())
        elif word == "DLET":
            call = (word, number, None)
        else:
            call = (word, number, self.key(base, words[4]) if words[2:] else None)
        answer = yield call
        self.status = answer.status.rstrip(" ").encode()
        if word == "FLD":
            self.letters = answer.letters.replace(" ", "-").encode()
        if answer.segment is not None:
            self.shown, self.shown_of[number] = (number, answer.segment), answer.segment
