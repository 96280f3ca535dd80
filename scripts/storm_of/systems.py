"""Drawn systems: definitions of main storage databases, scripts over them, and message lines."""
from vectors_of import numbers

from .databases import Database

NAMES = ["ACCTS", "TELLERS"]
KEYS = ["K1", "K2", "K3", "K4", "K5"]
# Kinds of fields that hold numbers, and their lengths.
KINDS = [("P", 2), ("P", 3), ("P", 4), ("F", 4), ("H", 2), ("X", 1), ("X", 2)]
VERIFIES = "EGHLMN"
VARIABLES = ["V", "W"]
TRANSACTIONS = ["PAY", "MOVE", "ASK", "HIRE", "FIRE", "SUM"]
GROUPS = [[1], [1, 1], [1, 1, 1], [1, 2, 1, 2], [1, 1, 1, 1], [1, 1, 2, 2, 1], [1, 2, 3, 1, 1, 2]]


class System:
    """Definitions and scripts, drawn."""

    def __init__(self, draws):
        self.draws = draws
        self.groups = draws.one_of(GROUPS)
        self.log_group = draws.one_of([1, 2, 3, 100])
        self.tries = draws.one_of([0, 0, 1, 2])
        self.bases = [self.base(place) for place in range(1 + draws.below(4) // 2)]
        # The database and the field that most payments are of.
        self.hot = draws.one_of(self.bases)
        self.field = self.number_field(self.hot)
        self.names = TRANSACTIONS[:2 + draws.below(4)]
        self.script_text = "".join(self.script(name) for name in self.names)

    def definitions(self):
        """The text of the definitions."""
        head = f'regions = {self.groups}\nrouter = "FOLD"\nlog_group = {self.log_group}\ntries = {self.tries}\n'
        return head + "".join(base.text() for base in self.bases)

    # ---- databases

    def base(self, place):
        """A database: a key, some fields with numbers, perhaps one with characters."""
        draws, letter = self.draws, "AB"[place]
        fields = [(f"{letter}0", "C", 2 + draws.below(2))]
        fields += [(f"{letter}{number}", *draws.one_of(KINDS)) for number in range(1, 2 + draws.below(3))]
        if draws.below(2):
            fields.append((f"{letter}9", "C", 1 + draws.below(4)))
        load = [[key, *(self.loaded(kind, length) for _, kind, length in fields[1:])]
                for key in KEYS if draws.below(8)]
        return Database(NAMES[place], draws.below(2) == 0, fields, load)

    def loaded(self, kind, length):
        """A value that fits a field."""
        if kind == "C":
            return "NYC"[:length]
        value = self.draws.below(200)
        return str(value) if numbers.write(kind, length, value) is not None else "9"

    # ---- scripts

    def script(self, name):
        lines = [f"TRAN {name}"]
        for _ in range(1 + self.draws.below(3)):
            lines += self.part()
        if self.draws.below(8):
            lines.append(f"REPLY {self.told()}")
        return "".join(f"{line}\n" for line in lines)

    def part(self):
        """Statements of a script that belong together: a call, and what is made of its answer."""
        base = self.draws.one_of(self.bases)
        makers = [self.fields, self.pay, self.pay, self.pay, self.pair, self.pair, self.pair, self.look, self.change,
                  self.insert, self.delete, self.walk, self.reckon]
        return self.draws.one_of(makers)(base)

    def key(self):
        return self.draws.one_of(["#1", "#1", "#1", "#1", "#2", "#2", "#2", "'K1'", "'K9'", "V"])

    def amount(self):
        return self.draws.one_of(["#3", "#3", "#3", "1", "7", "-3", "90", "W"])

    def told(self):
        words = ["STATUS", "FSAS", "V", "W", "#1", "'OF '", "' '", "'DONE'"]
        return " ".join(self.draws.one_of(words) for _ in range(1 + self.draws.below(3)))

    def guard(self):
        """What is done where the last call wasn't well."""
        return [[], ["IF STATUS NE ''", f"ROLB {self.draws.below(99)}", "END"],
                ["IF STATUS NE ''", f"REPLY {self.told()}", "END"],
                ["IF STATUS EQ ''", f"SET V {self.key()}", "ELSE", "SET W 5", "END"]][self.draws.below(4)]

    def number_field(self, base):
        return self.draws.one_of([name for name, kind, _ in base.fields if kind != "C"])

    def argument(self, base):
        """A field search argument: most are of a field with a number."""
        if self.draws.below(12) == 0:
            return self.draws.one_of([f"{base.fields[0][0]} E 'K1'", "NONE + 1", f"{base.fields[0][0]} = 'X'"])
        op = self.draws.one_of([*VERIFIES, *"++--=="])
        return f"{self.number_field(base)} {op} {self.amount()}"

    def fields(self, base):
        arguments = " ".join(self.argument(base) for _ in range(1 + self.draws.below(3)))
        return [f"FLD {base.name} KEY({self.key()}) {arguments}", *self.guard()]

    def pay(self, base):
        """A field with enough in it gets less: two of these meet at the sync point."""
        base, field = (self.hot, self.field) if self.draws.below(5) else (base, self.number_field(base))
        verify = self.draws.one_of([f"{field} H #3", f"{field} H #3", f"{field} N 0"])
        return [f"FLD {base.name} KEY(#1) {verify} {field} - #3", *self.guard()]

    def pair(self, base):
        """Two segments are held, in the order of the message."""
        field = self.number_field(base)
        lines = [f"GHU {base.name} KEY(#1)", *self.guard(), f"GHU {base.name} KEY(#2)", *self.guard()]
        return lines + [f"REPL {base.name} {field}=#3"] * self.draws.below(2)

    def look(self, base):
        word = self.draws.one_of(["GU", "GU", "GHU", "GN", "GNP"])
        key = f" KEY({self.key()})" if self.draws.below(5) else ""
        lines = [f"{word} {base.name}{key}", *self.guard()]
        return lines + [f"SET W IO.{self.number_field(base)}"] * self.draws.below(2)

    def change(self, base):
        field = self.number_field(base)
        value = self.draws.one_of([self.amount(), "W", f"IO.{field}"])
        return [f"GHU {base.name} KEY({self.key()})", *self.guard(), f"SET W IO.{field} + {self.amount()}",
                f"REPL {base.name} {field}={value}"]

    def insert(self, base):
        return [f"ISRT {base.name} {base.fields[0][0]}={self.key()} {self.number_field(base)}={self.amount()}",
                *self.guard()]

    def delete(self, base):
        return [f"GHU {base.name} KEY({self.key()})", f"DLET {base.name}", *self.guard()]

    def walk(self, base):
        lines = [f"GN {base.name}", "IF STATUS NE ''", "BREAK", "END", f"SET V V & IO.{base.fields[0][0]}"]
        return [f"REPEAT {1 + self.draws.below(5)}", *lines, "END"]

    def reckon(self, base):
        del base
        op = self.draws.one_of("+-*&")
        return [f"SET W {self.amount()} {op} {self.amount()}", f"IF W {self.draws.one_of(['LT', 'GT', 'NE'])} 5",
                f"SET V {self.key()}", "END"]

    # ---- lines

    def line(self, terminal, number):
        """A message line, with its number if it has one."""
        draws = self.draws
        if draws.below(25) == 0:
            return draws.one_of(["", f"{terminal}", f"{terminal} {number} NOSUCH A", "t1 ASK", f"{terminal} 0 PAY K1"])
        tran = draws.one_of(self.names) if draws.below(20) else draws.one_of(TRANSACTIONS)
        words = [terminal, *([str(number)] if number else []), tran]
        keys = [["K1", "K2"], ["K2", "K1"], ["K1", "K3"], ["K1", "K1"]][draws.below(4)]
        return " ".join([*words, *keys, str(draws.below(160) - 5)])
