"""Scripts texts: each statement with texts just inside the grammar and just outside, and texts with two faults."""
import tomllib

from . import scripts
from .texts import Draws, block

SAMPLE = """regions = [1, 1]
router = "FOLD"
[[msdb]]
name = "ACCTS"
fields = [["ACCT", "C", 4], ["BAL", "P", 4]]
load = [["A001", "100"], ["A002", "50"]]
[[msdb]]
name = "TELLERS"
dynamic = true
fields = [["TNO", "C", 4], ["CASH", "F", 4]]
load = [["T001", "0"]]
[[dedb]]
name = "CUST"
randomizer = "FOLD"
ci = 512
[[dedb.segment]]
name = "CUSTOMER"
fields = [["CNO", "C", 4], ["NAME", "C", 12]]
[[dedb.segment]]
name = "AUDIT"
parent = "CUSTOMER"
sequential = true
fields = [["WHAT", "C", 8]]
[[dedb.segment]]
name = "LOAN"
parent = "CUSTOMER"
fields = [["LNO", "C", 2], ["DUE", "P", 4]]
[[dedb.area]]
name = "AREA1"
uows = 2
base = 2
overflow = 1
capacity = 4
[[dedb.area]]
name = "AREA2"
uows = 2
base = 2
overflow = 1
capacity = 4
"""
# Names that are words of the language.
WORDS = """regions = [1]
router = "FOLD"
[[msdb]]
name = "KEY"
fields = [["KEY", "C", 4], ["E", "P", 2]]
[[dedb]]
name = "IO"
randomizer = "FOLD"
ci = 512
[[dedb.segment]]
name = "STATUS"
fields = [["TRAN", "C", 4], ["SET", "P", 2]]
[[dedb.segment]]
name = "FSAS"
parent = "STATUS"
fields = [["IF", "C", 2]]
[[dedb.segment]]
name = "IO"
parent = "FSAS"
fields = [["EQ", "C", 2]]
[[dedb.area]]
name = "A"
uows = 1
base = 1
overflow = 0
"""
EMPTY = """regions = [1]
router = "RANGE"
"""
TEXTS = {"sample": SAMPLE, "words": WORDS, "empty": EMPTY}
DEFINITIONS = {name: scripts.Definitions(tomllib.loads(text)) for name, text in TEXTS.items()}

SAMPLE_SCRIPTS = """TRAN DEPOSIT
FLD ACCTS KEY(#1) BAL + #2
IF STATUS NE ''
ROLB 1
END
REPLY 'NEW'
TRAN WDRAW
FLD ACCTS KEY(#1) BAL H #2 BAL - #2
IF STATUS NE ''
ROLB 7
END
REPLY 'PAID ' #2
TRAN ASK
GU ACCTS KEY(#1)
IF STATUS NE ''
REPLY 'NONE'
END
REPLY IO.BAL
TRAN SETBAL
GHU ACCTS KEY(#1)
REPL ACCTS BAL=#2
REPLY 'SET'
TRAN NEWCUST
ISRT CUST CUSTOMER CNO=#1 NAME=#2
IF STATUS NE ''
ROLB 2
END
REPLY 'ADDED'
TRAN NOTE
ISRT CUST CUSTOMER(#1) AUDIT WHAT=#2
IF STATUS NE ''
ROLB 3
END
REPLY 'NOTED'
TRAN LEND
ISRT CUST CUSTOMER(#1) LOAN LNO=#2 DUE=#3
REPLY 'LENT' STATUS
TRAN SHOWC
GU CUST CUSTOMER(#1)
IF STATUS NE ''
ROLB 4
END
SET OUT IO.NAME
REPEAT 10
GNP CUST AUDIT
IF STATUS NE ''
BREAK
END
SET OUT OUT & ' '
SET OUT OUT & IO.WHAT
END
REPLY OUT
TRAN TWO
GHU CUST CUSTOMER(#1)
GHU CUST CUSTOMER(#2)
REPLY 'BOTH'
TRAN LISTC
SET OUT ''
REPEAT 30
GN CUST CUSTOMER
IF STATUS NE ''
BREAK
END
IF OUT NE ''
SET OUT OUT & ' '
END
SET OUT OUT & IO.CNO
END
REPLY OUT
TRAN HIRE
ISRT TELLERS TNO=#1 CASH=0
SET A STATUS
ISRT TELLERS TNO=#1 CASH=0
REPLY A '/ ' STATUS
"""

LINES = """BOGUS|set A 1|5|'A'|TRAN|TRAN A B|TRAN 5|TRAN ABCDEFGHI|TRAN IO.A|SET|SET A|SET A 1 +|SET A 1 + 2 3
SET A 1 2|SET A 1 / 2|SET A 1 = 2|SET A 5-3|SET A B -5|SET 5 1|SET STATUS 1|SET FSAS 1|SET IO 1|SET KEY 1|SET A IO
SET A KEY|SET A (|SET A #|SET A #A|SET A 'B|SET A IO.|SET A IO .BAL|SET A IO.5A|SET A IO.ABCDEFGHI
SET A 12345678901234567890123456789012|IF 1 EQ|IF 1 EQ 1 1|IF 1 = 1|IF #12 EQ 1|IF EQ 1|ELSE|END|BREAK|BREAK 1|REPEAT
REPEAT 0|REPEAT 10001|REPEAT -1|REPEAT '5'|REPEAT A|REPEAT 1 1|REPEAT #1|REPLY|REPLY +|ROLB|ROLB 99|ROLB -1|ROLB 1 1
ROLB A|GU|GU 5|GU ACCTS ACCT|GU ACCTS KEY|GU ACCTS KEY(1) KEY(2)|GU ACCTS KEY(1|GU ACCTS (1)|GU ACCTS KEY(1 2)
GN ACCTS ACCTS(1)|GU NONE KEY(|FLD|FLD ACCTS|FLD ACCTS KEY(1)|FLD ACCTS BAL + 1|FLD ACCTS KEY BAL + 1
FLD ACCTS KEY(1) BAL 1|FLD ACCTS KEY(1) BAL +|FLD ACCTS KEY(1) BAL E5 1|FLD ACCTS KEY(1) BAL * 1
FLD ACCTS KEY(1) BAL -5|ISRT|ISRT ACCTS|ISRT ACCTS KEY(1) BAL=1|ISRT ACCTS BAL =1|ISRT CUST CNO=1|ISRT CUST CUSTOMER
ISRT CUST CUSTOMER CNO=|ISRT NONE A|REPL|REPL ACCTS|REPL ACCTS BAL|REPL ACCTS BAL + 1|DLET|DLET ACCTS KEY(1)|DLET 5
GU NONE|GU NONE KEY(1) KEY(2)|GU NONE A B(1)|GU CUST KEY(1)|GU CUST KEY|GU CUST CUST|GU CUST CUSTOMER ACCTS
GU ACCTS KEY(IO.NO)|FLD NONE KEY(1) BAL + 1|FLD ACCTS KEY(1) BAL + IO.NO|ISRT NONE A=1|ISRT NONE A B=1
ISRT ACCTS CASH=1|ISRT CUST NONE CNO=1|ISRT CUST CUSTOMER WHAT=1|ISRT CUST CUSTOMER(1) AUDIT CNO=1
ISRT ACCTS STATUS=1|REPL NONE A=1|REPL ACCTS BAL=IO.NO|DLET NONE|SET A IO.NO|SET A 1 + IO.CUST|IF IO.NO EQ 1
REPLY 1 IO.KEY|SET A 1|SET A 5--3|SET A 5 - 3|SET A B&'C'|SET A -0|SET SET EQ|SET A 1234567890123456789012345678901
SET A ''|SET A #0|SET A IO.WHAT|REPLY 5B#12'A''B'|ROLB 0|ROLB 98|ROLB -0|ROLB 00000000000098|GU ACCTS
GN ACCTS KEY( #1 )|GU CUST CUSTOMER LOAN(1)|GHNP CUST AUDIT|FLD CUST KEY(1) NO E 1 NO = 2 STATUS - 5
FLD ACCTS KEY(1) NO + -5|ISRT ACCTS ACCT= 1 BAL = 2|ISRT CUST CUSTOMER(1) LOAN LNO=1|REPL CUST NO = 1 NO=2|DLET CUST
TRAN STATUS|TRAN U|TRAN KEY|TRAN IO|TRAN END|SET TRAN 1|SET A 00000000000000000000000000000001
SET A 000000000000000000000000000000001|SET A -1234567890123456789012345678901|SET A - 5|SET A --5|SET A 1+2
SET A 1+-2|SET A 1*2|SET A 1*-2|SET A 1-2|SET A 1 -2|SET A B-2|SET A B- 2|SET A B -C|SET A B-C|SET A B--2|SET A 1&2
SET A #1#2|SET A #1&#2|SET A #10|SET A #1 0|SET A '|SET A '''|SET A ''''|SET A 'A' 'B'|SET A 'A'&'B'|SET A "B"
SET A 'IO.NO'|SET A IO.BAL.BAL|SET A IO.BALX|SET A AIO.BAL|SET AIO.BAL|SET A IO.BAL&IO.CASH|SET A IO.BAL+IO.NO
SET A IO.bal|SET A STATUS|SET A FSAS|SET A STATUS&FSAS|SET A STATUSX|SET ABCDEFGH 1|SET ABCDEFGHI 1|SET A1 1|SET 1A 1
SET A B.C|SET A;|SET A 1;|IF A EQ B|IF A NE B|IF A LT B|IF A LE B|IF A GT B|IF A GE B|IF A XX B|IF A EQ|IF A|IF
IF A EQB|IF AEQ B|IF 'A'EQ'B'|IF 5EQ5|IF #1EQ#2|IF EQ EQ EQ|IF A EQ KEY|IF IO EQ A|IF A = B|IFA EQ B|REPEAT 1
REPEAT 10000|REPEAT 00010000|REPEAT 1B|REPEAT +1|REPEAT 1.0|REPEAT2|REPEAT-1|REPEAT 99999999999999999999|ROLB 098
ROLB +1|ROLB 1.|ROLB#1|ROLB 98 |ROLB98|ELSE 1|END 1|END END|REPLY 'A'|REPLY A B C|REPLY 'A' + 'B'|REPLY KEY|REPLY IO
REPLY (1)|REPLY 1 2 KEY|REPLY STATUS FSAS #9 -5 IO.DUE 'x' V|REPLY 1-2|REPLY 1 - 2|REPLYA|REPLY'A'|REPLY5|REPLY#1
GU ACCTS KEY(#1)|GN ACCTS|GNP ACCTS|GHU ACCTS KEY('A')|GHN ACCTS KEY(STATUS)|GHNP ACCTS KEY(-5)|GX ACCTS|GHNPX ACCTS
GU ACCTS KEY (1)|GU ACCTS KEY(KEY)|GU ACCTS KEY(IO)|GU ACCTS KEY()|GU ACCTS KEY((1))|GU ACCTS KEY(1))
GU ACCTS KEY(1)KEY(2)|GU ACCTS KEY=1|GU ACCTS 'A'|GU ACCTS KEYS(1)|GU CUST|GU CUST CUSTOMER|GU CUST CUSTOMER(1)
GU CUST CUSTOMER (1)|GU CUST CUSTOMER(1)LOAN(2)|GU CUST LOAN CUSTOMER|GU CUST CUSTOMER()|GU CUST CUSTOMER(1 2)
GU CUST (1)|GU CUST STATUS|GU CUST IO|GU CUST IO.BAL|GU CUST CUSTOMER=1|GU CUST 5|GU IO|GU STATUS
GU CUST CUSTOMER(IO.NO)|GU CUST NONE(IO.NO)|GU NONE 5|GU NONE A(|GU NONE A(1) KEY|GU NONE KEY KEY|GU NONE NONE(KEY)
GU ACCTS CUSTOMER|FLD ACCTS KEY(#1) BAL + #2|FLD ACCTS KEY(#1) BAL+#2|FLD ACCTS KEY(#1)BAL=1
FLD ACCTS KEY(#1) BAL - 1|FLD ACCTS KEY(#1) BAL -1|FLD ACCTS KEY(#1) BAL - -1|FLD ACCTS KEY(#1) BAL--1
FLD ACCTS KEY(#1) BAL X 1|FLD ACCTS KEY(#1) BAL Z STATUS|FLD ACCTS KEY(#1) BAL EE 1|FLD ACCTS KEY(#1) BAL & 1
FLD ACCTS KEY(#1) BAL ( 1|FLD ACCTS KEY(#1) NONE + 1|FLD ACCTS KEY(#1) KEY + 1|FLD ACCTS KEY(#1) IO + 1
FLD ACCTS KEY(#1) BAL + 1 BAL|FLD ACCTS KEY(#1) BAL + 1 BAL -|FLD ACCTS KEY(#1) BAL + KEY|FLD ACCTS KEY(#1) 5 + 1
FLD ACCTS KEY(#1) E E E|FLD ACCTS KEY(KEY) BAL + 1|FLD ACCTS KEY(#1) KEY(#2) BAL + 1|FLD CUST KEY(#1) CNO = 1
FLD CUST CUSTOMER(#1) CNO = 1|FLD NONE KEY(1)|FLD NONE BAL + 1|FLD NONE KEY(1) BAL * 1|FLD ACCTS KEY (1) BAL + 1
FLD ACCTS IO.BAL + 1|ISRT ACCTS ACCT=1|ISRT ACCTS ACCT=1BAL=2|ISRT ACCTS ACCT=#1 BAL=#2 ACCT=#3
ISRT ACCTS ACCT=1,BAL=2|ISRT ACCTS ACCT ACCT=1|ISRT ACCTS NONE=1|ISRT ACCTS ACCT=1 NONE=2|ISRT ACCTS ACCT=1 BAL
ISRT ACCTS ACCT=1 BAL 2|ISRT ACCTS KEY=1|ISRT CUST CUSTOMER CNO=1|ISRT CUST CUSTOMER CNO =1|ISRT CUST CUSTOMER CNO= 1
ISRT CUST CUSTOMER(1) CNO=1|ISRT CUST CUSTOMER(1)CNO=1|ISRT CUST LOAN LNO=1|ISRT CUST CUSTOMER LOAN CNO=1
ISRT CUST CUSTOMER LOAN DUE=1|ISRT CUST KEY(1) CNO=1|ISRT CUST CUSTOMER KEY=1|ISRT CUST CUSTOMER(1) NONE LNO=1
ISRT CUST CUSTOMER(CNO=1|ISRT CUST CUSTOMER(1) (2) CNO=1|ISRT CUST CUSTOMER CNO=KEY|ISRT CUST CUSTOMER CNO=IO.NO
ISRT NONE KEY(1) A=1|ISRT NONE =1|ISRT NONE A=|ISRT NONE A B =1|ISRT CUST CUSTOMER|REPL ACCTS BAL=1
REPL ACCTS BAL = 1|REPL ACCTS BAL= 1|REPL ACCTS BAL =1|REPL ACCTS NONE=1|REPL ACCTS BAL=1 BAL=2
REPL ACCTS KEY(1) BAL=1|REPL CUST CUSTOMER CNO=1|REPL ACCTS BAL=|REPL ACCTS =1|REPL ACCTS 5=1|REPL ACCTS BAL=KEY
REPL ACCTS KEY=1|REPL ACCTS IO=1|REPL NONE BAL|DLET ACCTS|DLET TELLERS|DLET CUST CUSTOMER|DLET CUST(1)
DLET ACCTS ACCTS|DLET STATUS|DLET KEY"""

WORD_LINES = """GU KEY KEY(1)|GU KEY|GU KEY KEY|GU IO STATUS(1) FSAS IO(2)|GU IO KEY(1)|GU IO KEY|GU IO IO.KEY
GU IO IO|GU IO IO(IO.EQ)|GU IO IO(IO)|ISRT KEY KEY=1 E=2|ISRT KEY KEY KEY=1|ISRT KEY TRAN=1
ISRT IO STATUS TRAN=1 SET=2|ISRT IO STATUS FSAS IF=1|ISRT IO STATUS FSAS IO EQ=1|ISRT IO IO EQ=1|ISRT IO EQ=1
ISRT IO STATUS EQ=1|ISRT IO KEY(1) EQ=1|REPL KEY KEY=1|REPL IO IO=1|REPL IO IO =1|REPLY IO.KEY|REPLY IO.IO|REPLY IO.E
REPLY IO.SET IO.IF IO.EQ|REPLY IO.STATUS|FLD KEY KEY(1) KEY E 1|FLD KEY KEY(1) E E E E E E
FLD IO KEY(IO.TRAN) SET = IO.SET|DLET KEY|DLET IO|DLET STATUS|GU STATUS|GU ACCTS|SET IF IF|SET EQ EQ|IF IF EQ EQ
IF EQ EQ IF"""

EMPTY_LINES = """GU KEY|GU A KEY(1)|GU A B(1)|DLET A|REPLY IO.A|REPLY 1|FLD A KEY(1) B + 1|FLD A B + 1|ISRT A B=1
ISRT A B|REPL A B=1|SET A B"""


def line_lists():
    for name, text in [("sample", LINES), ("words", WORD_LINES), ("empty", EMPTY_LINES)]:
        for row in text.split("\n"):
            for line in row.split("|"):
                yield name, line.encode()


BYTE_LINES = [
    b"", b" ", b"\t", b" \t ", b"*", b"* \x7f", b" * \x7f", b"\t*A", b"*\xe4", b" *\x80", b"* \x00", b"A*",
    b"SET A \xc3\xa4", b"SET A 'B\tC'", b"SET A 'B\x7f'", b"SET A '\x1f'", b"SET A '\xe4'", b"SET A '~ !'",
    b"SET A 1\r", b"SET A 1\r ", b"SET A 1\r\r", b"\r", b"\r*", b"*\r", b" \r", b"SET\tA\t1", b"\tSET A 1\t",
    b"SET A\x0b1", b"SET A\x0c1", b"SET A 1\x00", b"\x00", b"SET A\xa01", b"SET A 1 *", b"SET A 1 * 2",
    b"SET A 1 * comment", b"SET A '" + b"x" * 1000 + b"'", b"SET A '" + b"x" * 1001 + b"'",
    b"SET A '" + b"\t" * 10 + b"'", b"REPLY " + b"'x'" * 300, b"REPLY " + b"1 " * 300, b"SET A " + b"9" * 31,
    b"SET A -" + b"9" * 31, b"SET A " + b"9" * 32, b"SET A -" + b"9" * 32, b"ROLB " + b"0" * 31, b"ROLB " + b"0" * 32,
]

TEXT_ROWS = [
    "TRAN A\nBOGUS", "REPLY 1\nTRAN A", "*\nGU NONE", "TRAN A\nGU NONE\nBOGUS", "TRAN A\nBOGUS\nGU NONE",
    "TRAN A\n\n* x\r\nGU NONE", "TRAN A\nREPLY 1\r", "TRAN A\nIF 1 EQ 1", "TRAN A\nREPEAT 2\nIF 1 EQ 1\nEND",
    "TRAN A\nIF 1 EQ 1\nELSE\nIF 1 EQ 1", "TRAN A\nIF 1 EQ 1\nEND\nREPEAT 2", "TRAN A\nIF 1 EQ 1\nTRAN B\nEND",
    "TRAN A\nIF 1 EQ 1\nTRAN B\nELSE", "TRAN A\nREPEAT 2\nTRAN B\nBREAK", "TRAN A\nIF 1 EQ 1\nTRAN B\nGU NONE",
    "TRAN A\nREPEAT 2\nTRAN B\nREPEAT 2", "TRAN A\nREPEAT 2\nELSE\nEND", "TRAN A\nIF 1 EQ 1\nELSE\nELSE\nEND",
    "TRAN A\nIF 1 EQ 1\nBREAK\nEND", "TRAN A\nREPEAT 2\nEND\nBREAK", "TRAN A\nREPEAT 2\nTRAN A",
    "TRAN A\nTRAN A\nBOGUS", "TRAN A\nTRAN B\nTRAN A", "TRAN A\nTRAN B\nTRAN B\nTRAN A",
    "TRAN A\nTRAN A\nREPEAT 10000\nEND\nREPEAT 1\nEND", "TRAN A\nREPEAT 9999\nBREAK\nEND\nTRAN A",
    "TRAN A\nREPEAT 10000\nSET A 1\nEND", "TRAN A\nREPEAT 9998\nSET A 1\nEND", "TRAN A\nREPEAT 9999\nSET A 1\nEND",
    "TRAN A\nREPEAT 10000\nEND",
    "TRAN A\nREPEAT 2000\nIF 1 EQ 1\nSET A 1\nSET A 1\nELSE\nSET A 1\nSET A 1\nSET A 1\nSET A 1\nEND\nEND",
    "TRAN A\nREPEAT 2000\nIF 1 EQ 1\nSET A 1\nSET A 1\nSET A 1\nSET A 1\nELSE\nSET A 1\nSET A 1\nEND\nEND",
    "TRAN A\nREPEAT 1999\nIF 1 EQ 1\nSET A 1\nSET A 1\nELSE\nSET A 1\nSET A 1\nSET A 1\nSET A 1\nEND\nEND",
    "TRAN A\nREPEAT 10000\nREPEAT 10000\nREPEAT 10000\nREPEAT 10000\nSET A 1\nEND\nEND\nEND\nEND",
    "TRAN A\nREPEAT 10000\nREPEAT 10000\nREPEAT 9\nSET A 1\nEND\nEND\nEND",
    "TRAN A\nREPEAT 10000\nREPEAT 10000\nREPEAT 10\nSET A 1\nEND\nEND\nEND",
    "TRAN A\nREPEAT 9998\nREPEAT 9998\nREPEAT 9\nSET A 1\nEND\nEND\nEND", "TRAN A\nREPEAT 10000\nSET A 1\nEND\nGU NONE",
    "TRAN A\nREPEAT 10000\nSET A 1\nEND\nIF 1 EQ 1", "TRAN A\nTRAN B\nREPEAT 10000\nSET A 1\nEND\nTRAN A",
    "TRAN A\nTRAN A\nREPEAT 10000\nSET A 1\nEND",
    "TRAN A\nREPEAT 10000\nSET A 1\nEND\nTRAN B\nREPEAT 10000\nSET A 1\nSET A 1\nEND", "TRAN A\nIF 1 EQ 1\nELSE\nEND",
    "TRAN A\nIF 1 EQ 1\nEND\nEND", "TRAN A\nREPEAT 1\nIF 1 EQ 1\nBREAK\nELSE\nBREAK\nEND\nBREAK\nEND",
    "TRAN A\nREPEAT 1\nREPEAT 1\nEND\nBREAK\nEND", "ELSE", "END", "BREAK", "TRAN A\nELSE", "TRAN A\nEND",
    "TRAN A\nIF 1 EQ 1\nREPEAT 1\nELSE\nEND\nEND", "TRAN A\nREPEAT 1\nIF 1 EQ 1\nTRAN B\nEND\nEND", "TRAN A",
    "TRAN A\n", "", "\n", "\n\n", "*", "* A\n\n", "\r\n", "TRAN A\r\nREPLY 1\r\n", "TRAN A\r\r\nREPLY 1",
    "TRAN A\n\rREPLY 1", "TRAN A\nREPLY 1\nTRAN B\nREPLY 1\n", "TRAN A TRAN B", "REPLY 1", "GU NONE",
    "*\xe4".encode("latin-1"), "TRAN A\n*\nREPEAT 5\n\n* x\nREPLY 1\nEND\n", "TRAN A\nIF 1 EQ IO.NO\nBOGUS",
    "TRAN A\nIF 1 EQ IO.NO", "TRAN A\nREPEAT 1\nGU NONE\nELSE", "TRAN A\nREPEAT 1\nELSE\nGU NONE",
    "TRAN KEY\nTRAN IO\nTRAN STATUS\nTRAN TRAN", "TRAN KEY\nTRAN IO\nTRAN KEY", "TRAN ABCDEFGH\nTRAN ABCDEFGH",
    "TRAN A\nTRAN A1\nTRAN AA", SAMPLE_SCRIPTS, SAMPLE_SCRIPTS.replace("IO.CNO", "IO.CNO2"),
    SAMPLE_SCRIPTS.replace("REPEAT 30", "REPEAT 10000"),
]


def texts():
    for text in TEXT_ROWS:
        yield text if isinstance(text, bytes) else text.encode()
    yield from limits()
    yield from two_faults()


def limits():
    for depth in [64, 65]:
        for word in [b"IF 1 EQ 1\n", b"REPEAT 1\n"]:
            yield b"TRAN T\n" + word * depth + b"END\n" * depth
        yield b"TRAN T\n" + b"REPEAT 1\n" * depth
        yield b"TRAN T\n" + b"REPEAT 1\n" * depth + b"END\n" * (depth + 1)
        yield b"TRAN T\n" + b"REPEAT 1\n" * (depth - 1) + b"IF 1 EQ IO.NO\n"
        yield b"TRAN T\n" + b"REPEAT 1\n" * (depth - 1) + b"TRAN U\n" + b"REPEAT 1\n" * 64
        yield b"TRAN T\n" + b"REPEAT 1\nEND\n" * 3 + b"REPEAT 1\n" * depth + b"END\n" * depth
    yield b"TRAN T\nFLD NONE KEY(1)" + b" A+1" * 256
    yield b"TRAN T\nISRT ACCTS" + b" NO=1" * 256
    for count in [255, 256]:
        yield b"TRAN T\nFLD ACCTS KEY(1)" + b" A+1" * count
        yield b"TRAN T\nREPL ACCTS" + b" A=1" * count
        yield b"TRAN T\nISRT ACCTS" + b" A=1" * count
        yield b"TRAN T\nISRT CUST CUSTOMER" + b" CNO=1" * count
    for count in [9998, 9999, 10_000]:
        yield b"TRAN T\nREPEAT " + str(count).encode() + b"\nSET A 1\nEND\n"
    for count in [7, 8, 9, 10]:
        yield b"TRAN T\n" + b"REPEAT 10\n" * (count - 4) + b"SET A 1\n" + b"END\n" * (count - 4)
    # A text has 1,000,000 bytes at most.
    yield b"TRAN T\n" + b"*" * 999_994


FAULTY = ["BOGUS", "GU NONE", "IF 1 EQ 1", "REPEAT 3", "END", "ELSE", "BREAK", "TRAN A", "TRAN B", "REPLY IO.NO"]
FAULTY += ["SET A \xe4", "REPEAT 10000\nREPLY 1\nEND"]


def two_faults():
    """Two or three lines, each of which may be one fault, in each order."""
    for first in FAULTY:
        for second in FAULTY:
            yield f"TRAN A\n{first}\n{second}\n".encode("latin-1")
        yield f"{first}\nTRAN A\n".encode("latin-1")
        yield f"TRAN A\n{first}\nTRAN A\n".encode("latin-1")
    draws = Draws(41)
    for _ in range(60):
        count = 3 + draws.below(5)
        words = ["IF A EQ B", "REPEAT 2", "END", "END", "ELSE", "BREAK", "SET A 1", "TRAN B", "GU CUST"]
        yield ("TRAN A\n" + "\n".join(draws.one_of(words) for _ in range(count))).encode()


# Lines with a token left out, twice or in the place of another.
MOULDS = [
    "TRAN A", "SET A 1", "SET A B + 2", "IF A EQ 1", "REPEAT 3", "REPLY A 'B'", "ROLB 7", "GU ACCTS KEY ( A )",
    "GHN CUST CUSTOMER ( A ) LOAN",
    "FLD ACCTS KEY ( A ) BAL E 1 BAL - 2", "ISRT ACCTS BAL= 1 ACCT = 2", "ISRT CUST CUSTOMER ( A ) LOAN DUE= 1",
    "REPL ACCTS BAL = 1", "DLET CUST",
]
OTHER_TOKENS = ["5", "'T'", "NONE", "KEY", "(", "="]


def moulded():
    for mould in MOULDS:
        tokens = mould.split(" ")
        for place in range(len(tokens)):
            front, token, back = tokens[:place], tokens[place], tokens[place + 1:]
            for instead in [[], [token, token]] + [[other] for other in OTHER_TOKENS]:
                yield " ".join(front + instead + back).encode()
        for other in OTHER_TOKENS:
            yield " ".join(tokens + [other]).encode()


def case(name, text):
    return block(name, scripts.fault_of(text, DEFINITIONS[name]), text)


def behind_tran(line):
    """A script of a line, with an END where it may open a block."""
    return b"TRAN T\n" + line + (b"\nEND" if line.startswith((b"IF", b"REPEAT")) else b"")


def cases():
    for name, line in line_lists():
        yield case(name, behind_tran(line))
    for place, line in enumerate(BYTE_LINES):
        yield case("sample", b"TRAN T\n" + line)
        if place < 28:
            yield case("sample", line + b"\nTRAN T")
    for line in moulded():
        yield case("sample", behind_tran(line))
    for text in texts():
        yield case("sample", text)


def lines():
    yield "Scripts texts: `=== DEFINITIONS: ok`, or with the first fault. Definitions get their names first."
    for name, text in TEXTS.items():
        yield block(f"define {name}", "ok", text.encode())
    yield from dict.fromkeys(cases())
