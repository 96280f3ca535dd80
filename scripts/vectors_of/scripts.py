"""What a scripts text is by definitions: right, or its first fault."""
import re

LONGEST = 1_000_000
DEAREST = 10_000
GREATEST_COST = 1_000_000_000
DEEPEST = 64
NO_VARIABLES = ["STATUS", "FSAS", "IO", "KEY"]
GETS = ["GU", "GN", "GNP", "GHU", "GHN", "GHNP"]
TOKEN = re.compile(
    r"(?P<field>IO\.(?P<name>[A-Z][A-Z0-9]*))|(?P<word>[A-Z][A-Z0-9]*)|(?P<number>-?[0-9]+)"
    r"|'(?P<text>[ -&(-~]*)'|#(?P<place>[0-9])|(?P<sign>[()=+\-*&])"
)


class Syntax(Exception):
    """A line is no statement, or can't stand where it does."""


class Unknown(Exception):
    """A line names what isn't defined."""


class Definitions:
    """The names of definitions: databases with their segments, and segments with their fields."""

    def __init__(self, tables):
        self.msdbs = {one["name"]: fields_of(one) for one in tables.get("msdb", [])}
        self.dedbs = {}
        for one in tables.get("dedb", []):
            self.dedbs[one["name"]] = {segment["name"]: fields_of(segment) for segment in one["segment"]}
        self.fields = {field for fields in self.msdbs.values() for field in fields}
        self.fields |= {field for types in self.dedbs.values() for fields in types.values() for field in fields}


def fields_of(table):
    return [row[0] for row in table["fields"]]


# ---- tokens

class Tokens:
    """The tokens of a line, read from the left."""

    def __init__(self, line):
        self.tokens, at = [], 0
        while line[at:].strip(" \t"):
            at += len(line[at:]) - len(line[at:].lstrip(" \t"))
            found = TOKEN.match(line, at)
            if not found or not is_token(found):
                raise Syntax
            self.tokens.append((found.lastgroup if found.lastgroup != "name" else "field", found, at, found.end()))
            at = found.end()
        self.at = 0

    def kind(self, ahead=0):
        place = self.at + ahead
        return self.tokens[place][0] if place < len(self.tokens) else None

    def take(self, kind, value=None):
        if self.kind() != kind:
            raise Syntax
        found = self.tokens[self.at][1]
        text = found["name"] if kind == "field" else found[kind]
        if value is not None and text != value:
            raise Syntax
        self.at += 1
        return text

    def has_sign(self, sign, ahead=0):
        return self.kind(ahead) == "sign" and self.tokens[self.at + ahead][1]["sign"] == sign

    def begins_fields(self):
        """Whether a word stands here with `=` directly behind it."""
        is_word = self.kind() == "word" and self.has_sign("=", 1)
        return is_word and self.tokens[self.at][3] == self.tokens[self.at + 1][2]

    def end(self):
        if self.kind() is not None:
            raise Syntax


def is_token(found):
    """Whether what was matched keeps its longest length."""
    if found["field"]:
        return len(found["name"]) <= 8
    if found["word"]:
        return len(found["word"]) <= 8
    if found["number"]:
        return len(found["number"].lstrip("-")) <= 31
    if found["text"] is not None:
        return len(found["text"]) <= 1000
    return True


# ---- parts of statements

class Line:
    """One line, read as a statement. Names that aren't defined are told once its form is right."""

    def __init__(self, text, definitions):
        self.tokens = Tokens(text)
        self.definitions = definitions
        self.is_known = True

    def known(self, fact):
        self.is_known = self.is_known and fact

    def operand(self):
        kind = self.tokens.kind()
        if kind == "field":
            self.known(self.tokens.take("field") in self.definitions.fields)
        elif kind == "word":
            if self.tokens.take("word") in ["IO", "KEY"]:
                raise Syntax
        elif kind in ["number", "text", "place"]:
            self.tokens.take(kind)
        else:
            raise Syntax

    def is_operand(self):
        return self.tokens.kind() in ["field", "word", "number", "text", "place"]

    def number(self, least, most):
        value = int(self.tokens.take("number"))
        if not least <= value <= most:
            raise Syntax
        return value

    def in_parentheses(self):
        self.tokens.take("sign", "(")
        self.operand()
        self.tokens.take("sign", ")")

    def segment_arguments(self, ends_at_fields):
        """Words, each with an operand in parentheses or without."""
        found = []
        while self.tokens.kind() == "word" and not (ends_at_fields and self.tokens.begins_fields()):
            name = self.tokens.take("word")
            is_qualified = self.tokens.has_sign("(")
            if is_qualified:
                self.in_parentheses()
            found.append((name, is_qualified))
        return found

    def fields(self):
        names = []
        while self.tokens.kind() is not None:
            names.append(self.tokens.take("word"))
            self.tokens.take("sign", "=")
            self.operand()
        if not 1 <= len(names) <= 255:
            raise Syntax
        return names

    # ---- statements; each gives the word of a block that it opens or of what it does to one

    def statement(self):
        word = self.tokens.take("word")
        makers = {
            "TRAN": self.begin, "SET": self.set, "IF": self.choice, "REPEAT": self.loop, "REPLY": self.reply,
            "ROLB": self.roll,
            "FLD": self.field_call, "ISRT": self.insert, "REPL": self.replace, "DLET": self.delete,
        }
        if word in GETS:
            found = self.get()
        elif word in makers:
            found = makers[word]()
        elif word in ["ELSE", "END", "BREAK"]:
            found = None
        else:
            raise Syntax
        self.tokens.end()
        return word, found

    def begin(self):
        return self.tokens.take("word")

    def set(self):
        if self.tokens.take("word") in NO_VARIABLES:
            raise Syntax
        self.operand()
        if self.tokens.kind() == "sign":
            if self.tokens.take("sign") not in "+-*&":
                raise Syntax
            self.operand()

    def choice(self):
        self.operand()
        if self.tokens.take("word") not in ["EQ", "NE", "LT", "LE", "GT", "GE"]:
            raise Syntax
        self.operand()

    def loop(self):
        return self.number(1, 10_000)

    def reply(self):
        self.operand()
        while self.is_operand():
            self.operand()

    def roll(self):
        self.number(0, 98)

    def get(self):
        database = self.tokens.take("word")
        found = self.segment_arguments(False)
        if database in self.definitions.msdbs:
            if any(argument != ("KEY", True) for argument in found) or len(found) > 1:
                raise Syntax
        else:
            self.segments_known(database, found)

    def segments_known(self, database, found):
        types = self.definitions.dedbs.get(database)
        self.known(types is not None and all(name in types for name, _ in found))

    def field_call(self):
        self.database()
        self.tokens.take("word", "KEY")
        self.in_parentheses()
        count = 0
        while self.tokens.kind() is not None:
            self.tokens.take("word")
            if self.tokens.kind() == "word":
                if len(self.tokens.take("word")) != 1:
                    raise Syntax
            elif self.tokens.take("sign") not in "+-=":
                raise Syntax
            self.operand()
            count += 1
        if not 1 <= count <= 255:
            raise Syntax

    def database(self):
        name = self.tokens.take("word")
        self.known(name in self.definitions.msdbs or name in self.definitions.dedbs)

    def insert(self):
        database = self.tokens.take("word")
        found = self.segment_arguments(True)
        names = self.fields()
        if database in self.definitions.msdbs:
            if found:
                raise Syntax
            self.known(all(name in self.definitions.msdbs[database] for name in names))
            return
        if database in self.definitions.dedbs and not found:
            raise Syntax
        self.segments_known(database, found)
        if self.is_known:
            fields = self.definitions.dedbs[database][found[-1][0]]
            self.known(all(name in fields for name in names))

    def replace(self):
        self.database()
        self.fields()

    def delete(self):
        self.database()


# ---- the whole text

class Script:
    """A script under way: its open blocks, and the costs of their branches."""

    def __init__(self, name):
        self.name = name
        self.blocks = []
        self.cost = 1

    def open(self, word, line, times):
        if len(self.blocks) == DEEPEST:
            raise Syntax
        self.blocks.append({"word": word, "line": line, "times": times, "branches": [0]})

    def spend(self, cost):
        if self.blocks:
            self.blocks[-1]["branches"][-1] += cost
        else:
            self.cost += cost

    def take(self, word, line, found):
        if word in ["IF", "REPEAT"]:
            self.open(word, line, found)
        elif word == "ELSE":
            if not self.blocks or self.blocks[-1]["word"] != "IF" or len(self.blocks[-1]["branches"]) == 2:
                raise Syntax
            self.blocks[-1]["branches"].append(0)
        elif word == "END":
            if not self.blocks:
                raise Syntax
            block = self.blocks.pop()
            self.spend(1 + (block["times"] or 1) * max(block["branches"]))
        else:
            if word == "BREAK" and all(block["word"] != "REPEAT" for block in self.blocks):
                raise Syntax
            self.spend(1)


def lines_of(text):
    """The lines of a text, each with its number."""
    pieces = text.split(b"\n")
    for place, piece in enumerate(pieces):
        if place + 1 < len(pieces) and piece.endswith(b"\r"):
            piece = piece[:-1]
        yield place + 1, piece


def fault_of(text, definitions):
    """What is told of a text: `ok`, or its first fault."""
    if len(text) > LONGEST:
        return "too long"
    scripts = []
    for number, piece in lines_of(text):
        try:
            take_line(scripts, number, piece, definitions)
        except Syntax:
            return f"syntax at line {number}"
        except Unknown:
            return f"unknown name at line {number}"
    still_open = [block["line"] for script in scripts for block in script.blocks]
    if still_open:
        return f"syntax at line {min(still_open)}"
    return fault_of_scripts(scripts)


def take_line(scripts, number, piece, definitions):
    if any(byte > 127 for byte in piece):
        raise Syntax
    text = piece.decode("ascii")
    front = text.strip(" \t")
    if not front or front.startswith("*"):
        return
    line = Line(text, definitions)
    word, found = line.statement()
    if word == "TRAN":
        scripts.append(Script(found))
    elif not scripts:
        raise Syntax
    else:
        scripts[-1].take(word, number, found)
    if not line.is_known:
        raise Unknown


def fault_of_scripts(scripts):
    names = []
    for script in scripts:
        if script.name in names:
            return f"transaction {script.name} twice"
        names.append(script.name)
        if script.cost > DEAREST:
            return f"transaction {script.name} costs {min(script.cost, GREATEST_COST)}"
    return "ok"
