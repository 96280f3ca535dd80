"""The cases of a storm: databases and scripts, and runs whose lines and events are drawn."""
from collections import Counter

from vectors_of.texts import Draws

from . import scripts
from .databases import Database
from .turns import Machine

ACCOUNTS = [f"A00{place}" for place in range(1, 7)]
TELLERS = [f"T00{place}" for place in range(1, 6)]

DATABASES = {
    "WIDE": [
        Database("ACCTS", False, [("ACCT", "C", 4), ("BAL", "P", 4), ("CITY", "C", 3), ("MOVES", "H", 2)],
                 [[key, str(350 + 50 * place), "OSL", "0"] for place, key in enumerate(ACCOUNTS)]),
        Database("TELLERS", True, [("TNO", "C", 4), ("CASH", "F", 4)], [["T001", "0"], ["T003", "-30"]]),
    ],
    # Fields that are soon too small.
    "TIGHT": [
        Database("ACCTS", False, [("ACCT", "C", 4), ("BAL", "P", 2), ("CITY", "C", 3), ("MOVES", "X", 1)],
                 [[key, "700", "NYC", "250"] for key in ACCOUNTS]),
        Database("TELLERS", True, [("TNO", "C", 4), ("CASH", "H", 2)], []),
    ],
}

# Field calls: most transactions of a bank.
FIELDS = """TRAN DEPOSIT
FLD ACCTS KEY(#1) BAL + #2 MOVES + 1
IF STATUS NE ''
ROLB 1
END
REPLY 'NEW'
TRAN WDRAW
FLD ACCTS KEY(#1) BAL H #2 BAL - #2
IF STATUS NE ''
REPLY STATUS ' ' FSAS
END
GU ACCTS KEY(#1)
REPLY 'PAID ' #2 ' OF ' IO.BAL
TRAN MOVE
FLD ACCTS KEY(#1) BAL G #3 BAL - #3
IF STATUS NE ''
ROLB 7
END
FLD ACCTS KEY(#2) BAL + #3
IF STATUS NE ''
ROLB 8
END
REPLY 'MOVED'
TRAN ALL
FLD ACCTS KEY(#1) BAL N 0 BAL = 0 CITY = #2
FLD TELLERS KEY(#3) CASH + 5 CASH L 100
REPLY STATUS '/' FSAS
TRAN RESET
FLD ACCTS KEY(#1) BAL = #2 MOVES = 0
REPLY 'RESET' STATUS
TRAN ASK
GU ACCTS KEY(#1)
IF STATUS NE ''
REPLY 'NONE'
END
REPLY IO.BAL ' ' IO.CITY
TRAN ODD
FLD ACCTS KEY(#1) BAL Q 1 NONE + 1 CITY + 1 ACCT = 'X' BAL + 'X' BAL E 100
SET A FSAS
FLD TELLERS KEY('T009') CASH + 1
REPLY A STATUS FSAS
"""

# Holds: each locks what it reads, in the order that its message names.
HOLDS = """TRAN SETBAL
GHU ACCTS KEY(#1)
IF STATUS NE ''
ROLB 4
END
REPL ACCTS BAL=#2
REPLY 'SET'
TRAN SWAP
GHU ACCTS KEY(#1)
SET X IO.BAL
GHU ACCTS KEY(#2)
SET Y IO.BAL
REPL ACCTS BAL=X CITY='SWP'
GHU ACCTS KEY(#1)
REPL ACCTS BAL=Y
REPLY X ' FOR ' Y
TRAN THREE
GHU ACCTS KEY(#1)
SET X IO.BAL
GHU ACCTS KEY(#2)
SET X X + IO.BAL
GHU ACCTS KEY(#3)
IF STATUS EQ ''
SET X X - IO.BAL
ELSE
SET X X * 2
END
REPL ACCTS BAL=X MOVES=3
REPLY X
TRAN TWOACC
GHU ACCTS KEY(#1)
GHU ACCTS KEY(#2)
FLD ACCTS KEY(#1) BAL - 1
REPLY 'BOTH'
TRAN ADD
FLD ACCTS KEY(#1) BAL + #2
FLD ACCTS KEY(#3) BAL + #2
REPLY 'ADDED'
TRAN ODD
GU ACCTS KEY(#1)
SET A STATUS
REPL ACCTS BAL=1
SET A A & STATUS
GHN ACCTS
SET A A & STATUS
GHU ACCTS
SET A A & STATUS
GHU ACCTS KEY(#1)
REPL ACCTS ACCT='A'
SET A A & STATUS
DLET ACCTS
SET A A & STATUS
ISRT ACCTS ACCT=#1
REPLY A STATUS
"""

# Inserts and deletes, and looks at all that stands.
STAFF = """TRAN HIRE
ISRT TELLERS TNO=#1 CASH=#2
SET A STATUS
ISRT TELLERS TNO=#1
REPLY A '/' STATUS
TRAN FIRE
GHU TELLERS KEY(#1)
IF STATUS NE ''
REPLY 'NOBODY'
END
DLET TELLERS
FLD ACCTS KEY('A001') BAL - IO.CASH
FLD TELLERS KEY(#1) CASH + 1
REPLY 'FIRED ' STATUS
TRAN PAY
FLD TELLERS KEY(#1) CASH + #2
IF STATUS NE ''
REPLY STATUS
END
FLD ACCTS KEY('A002') BAL - #2
IF STATUS NE ''
ROLB 9
END
REPLY 'PAID'
TRAN TRADE
GHU TELLERS KEY(#1)
DLET TELLERS
SET A STATUS
ISRT TELLERS TNO=#2 CASH=1
REPLY A '/' STATUS
TRAN LIST
SET A ''
REPEAT 9
GN TELLERS
IF STATUS NE ''
BREAK
END
SET A A & IO.TNO
SET A A & ','
SET N N + IO.CASH
END
REPLY A N
TRAN FIRST
GU TELLERS
IF STATUS EQ 'GE'
ROLB 5
END
GN TELLERS
GHU TELLERS KEY(IO.TNO)
REPL TELLERS CASH=#1
REPLY STATUS
TRAN QUIET
GU ACCTS KEY(#1)
"""

SCRIPTS = {"FIELDS": FIELDS, "HOLDS": HOLDS, "STAFF": STAFF}

# The lines of each kind of scripts: an A stands for an account, a T for a teller, an N for an amount.
LINES = {
    "FIELDS": ["DEPOSIT A N", "DEPOSIT A N", "WDRAW A N", "WDRAW A N", "WDRAW A N", "WDRAW A N", "MOVE A A N",
               "MOVE A A N", "RESET A 400", "RESET A 400", "RESET A 700", "ALL A BER T", "ASK A", "ODD A"],
    "HOLDS": ["SETBAL A N", "SWAP A A", "SWAP A A", "SWAP A A", "THREE A A A", "THREE A A A", "TWOACC A A",
              "TWOACC A A", "ADD A N A", "ODD A"],
    "STAFF": ["HIRE T N", "HIRE T N", "FIRE T", "PAY T N", "PAY T N", "TRADE T T", "LIST", "FIRST N", "QUIET A"],
}
# Lines that ask for nothing, or end with the code of a script that goes wrong.
SPOILED = [
    "", "T1", "T2 NOSUCH A001", "T3 deposit A001 1", "4 ASK", "T5  ASK A001", "T6 ASK \u00e9", "t1 LIST", "T1 ",
    "TERMINAL9 LIST", "T2\tLIST", "T3 DEPOSIT TOOLONG 5", "T4 DEPOSIT A001", "T5 SETBAL A001 ABC", "T6 SWAP A001 A009",
    "T1 HIRE T0001 5", "T2 THREE A001 A002 A009",
]

GROUPS = [[1, 1, 1, 1], [1, 1, 2, 2], [1, 2, 2, 1], [1, 2, 3, 1], [1, 2, 3, 4]]
LOG_GROUPS = [2, 3, 4, 7, 100]

# How often each event is drawn: all regions alike, one ahead, lines first, seldom sealed.
WEIGHTS = [
    {"IN": 20, "R1": 10, "R2": 10, "R3": 10, "R4": 10, "LOG": 4, "CKPT": 0, "OUT": 0},
    {"IN": 22, "R1": 18, "R2": 9, "R3": 8, "R4": 5, "LOG": 4, "CKPT": 1, "OUT": 1},
    {"IN": 30, "R1": 9, "R2": 9, "R3": 9, "R4": 9, "LOG": 4, "CKPT": 2, "OUT": 0},
    {"IN": 20, "R1": 10, "R2": 10, "R3": 10, "R4": 10, "LOG": 2, "CKPT": 0, "OUT": 1},
]


class Case:
    """A run, and what comes of it."""

    def __init__(self, number):
        draws = Draws(1000 + number)
        self.databases = list(DATABASES)[number // 3 % 2]
        self.kind = list(SCRIPTS)[number % 3]
        self.groups = draws.one_of(GROUPS[:2] if self.kind == "FIELDS" else GROUPS)
        self.log_group = draws.one_of(LOG_GROUPS)
        self.tries = number // 6 % 3
        self.lines = [drawn_line(draws, self.kind) for _ in range(19 + draws.below(12))]
        bag = [event for event, weight in WEIGHTS[number % 4].items() for _ in range(weight)]
        self.run(draws, bag, 150 + draws.below(80))

    def run(self, draws, bag, count):
        """Draws so many events, and takes them."""
        machine = Machine(DATABASES[self.databases], scripts.read(SCRIPTS[self.kind]), self.groups, self.log_group,
                          self.tries, [line.encode() for line in self.lines])
        self.events, self.dids = [], []
        for _ in range(count):
            self.events.append(drawn_event(draws, bag, machine))
            self.dids.append(machine.step(self.events[-1]))
        machine.drain()
        self.log, self.sent, self.shown = machine.log + b"\x00", machine.sent.decode(), machine.show()
        self.outcomes = machine.outcomes

    def text(self):
        """The case as it stands in the file."""
        yield f"=== case {self.databases} {self.kind}"
        yield f"regions = {self.groups}"
        yield 'router = "FOLD"'
        yield f"log_group = {self.log_group}"
        yield f"tries = {self.tries}"
        yield "--- lines"
        yield from self.lines
        yield "--- events"
        yield from rows(self.events)
        yield "--- dids"
        yield from rows(letters(did) for did in self.dids)
        yield "--- log"
        for at in range(0, len(self.log), 60):
            yield self.log[at:at + 60].hex()
        yield "--- sent"
        yield from self.sent.splitlines()
        yield "--- databases"
        yield from self.shown.splitlines()


def rows(words, count=20):
    """Words, so many a line."""
    words = list(words)
    return [" ".join(words[at:at + count]) for at in range(0, len(words), count)]


def letters(did):
    """A word for what an event did, as the file has it."""
    word, _, count = did.partition("/")
    return {"retried": "y"}.get(word, word[0]) + count


def drawn_event(draws, bag, machine):
    """An event of the bag. Those that do nothing are drawn less often."""
    for _ in range(5):
        event = draws.one_of(bag)
        if not machine.is_idle(event):
            break
    return event


def drawn_line(draws, kind):
    if draws.below(16) == 0:
        return draws.one_of(SPOILED)
    # Few accounts stand in each other's way.
    accounts = ACCOUNTS[:1 + draws.below(2)] if kind == "FIELDS" else ACCOUNTS[:2 + draws.below(2)]
    words, left = [f"T{1 + draws.below(24)}"], list(accounts)
    for word in draws.one_of(LINES[kind]).split():
        if word == "A":
            word = draws.one_of(left or accounts) if draws.below(16) else "A009"
            left = [other for other in left if other != word]
        elif word == "T":
            word = draws.one_of(TELLERS)
        elif word == "N":
            word = str(1 + draws.below(400))
        words.append(word)
    return " ".join(words)


COUNT = 63


def written():
    """The lines of the file, and how many cases and events it has."""
    cases = [Case(number) for number in range(COUNT)]
    lines = ["A storm: definitions, scripts, and runs with what comes of each."]
    for name, bases in DATABASES.items():
        lines += [f"=== databases {name}"] + "".join(base.text() for base in bases).splitlines()
    for name, text in SCRIPTS.items():
        lines += [f"=== scripts {name}"] + text.splitlines()
    for case in cases:
        lines += case.text()
    return lines, cases


def counted(cases):
    """What events did and how transactions ended, and how often."""
    dids = Counter(did.split("/")[0] for case in cases for did in case.dids)
    outcomes = Counter(outcome for case in cases for outcome in case.outcomes)
    return {**dids, **outcomes}
