"""The loads of run.py: definitions, messages, and a schedule each of whose tokens does something.

A message is a deposit (45 in 100), a withdrawal (45, of which 1 in 25 is refused) or a question (10). A schedule has a
million tokens at most; a deposit takes five, so a run takes in some 200,000 messages.
"""
import os
import random
import shutil

SCRIPTS = """TRAN DEPOSIT
FLD ACCTS KEY(#1) BAL + #2
IF STATUS NE ''
ROLB 1
END
REPLY 'NEW'
TRAN WDRAW
FLD ACCTS KEY(#1) BAL H #2 BAL - #2
IF STATUS NE ''
ROLB 7
END
REPLY 'PAID ' #2
TRAN ASK
GU ACCTS KEY(#1)
IF STATUS NE ''
REPLY 'NONE'
END
REPLY IO.BAL
"""
START = 100_000
MOST_TOKENS = 1_000_000
# What a message does next in its region.
ANSWER, LOCK, COMMIT, END = range(4)


class Messages:
    """Messages one after another, over accounts of which the first few are hot: they get this share."""

    def __init__(self, accounts, terminals, numbered, hot, share):
        self.accounts, self.terminals, self.numbered = accounts, terminals, numbered
        self.hot, self.share = min(hot, accounts), share
        self.draw, self.balances, self.place = random.Random(7), {}, 0

    def account(self):
        return f"A{self.draw.randrange(self.hot if self.draw.random() < self.share else self.accounts):07d}"

    def next(self):
        """The line, its account, and whether it changes the account."""
        account, kind = self.account(), self.draw.random()
        balance, amount = self.balances.get(account, START), self.draw.randrange(1, 100)
        text, changes = f"DEPOSIT {account} {amount}", True
        if kind < 0.1:
            text, changes = f"ASK {account}", False
        elif kind < 0.55:
            changes = self.draw.random() >= 0.04
            amount = min(amount, balance) if changes else 9_999_999
            text = f"WDRAW {account} {amount}"
            self.balances[account] = balance - (amount if changes else 0)
        else:
            self.balances[account] = balance + amount
        number = f" {self.place // self.terminals + 1}" if self.numbered else ""
        line = f"T{self.place % self.terminals}{number} {text}\n"
        self.place += 1
        return line, account, changes


class Schedule:
    """Takes in messages as regions get idle, and gives each busy region one turn after another. A turn in which a
    region waits for another's account is counted."""

    def __init__(self, regions, group):
        self.regions, self.group = [None] * regions, group
        self.locks, self.unsealed, self.waits, self.tokens = {}, 0, 0, []

    def step(self, region):
        """The turn of a busy region: whether its message is done."""
        account, changes, phase = self.regions[region]
        if phase == ANSWER:
            self.regions[region] = account, changes, LOCK if changes else END
            return False
        if phase == LOCK:
            if self.locks.setdefault(account, region) != region:
                self.waits += 1
                return False
            self.regions[region] = account, changes, COMMIT
            return False
        self.regions[region] = None
        if phase == COMMIT:
            del self.locks[account]
        self.unsealed += 1
        return True

    def turn(self, region):
        self.tokens.append(f"R{region + 1}")
        if self.step(region) and self.unsealed == self.group:
            self.tokens.append("LOG")
            self.unsealed = 0

    def take(self, region, account, changes):
        self.tokens += ["IN", f"R{region + 1}"]
        self.regions[region] = account, changes, ANSWER

    def run(self, messages, count):
        """The lines of so many messages, and the tokens that run them to their ends."""
        lines = []
        while len(lines) < count or any(self.regions):
            for region, busy in enumerate(self.regions):
                if busy:
                    self.turn(region)
                elif len(lines) < count:
                    line, account, changes = messages.next()
                    lines.append(line)
                    self.take(region, account, changes)
        if self.unsealed:
            self.tokens.append("LOG")
        if len(self.tokens) > MOST_TOKENS:
            raise SystemExit(f"{len(self.tokens):,} tokens are more than a schedule has")
        return lines


def put(folder, name, lines):
    with open(f"{folder}/{name}", "w", encoding="ascii") as file:
        file.writelines(lines)


class Load:
    """So many messages a run, over so many accounts, of so many terminals in turn, in a folder of its own."""

    def __init__(self, count, accounts=10_000, group=1_000, regions=1, terminals=1_000, numbered=False, share=0.1):
        if terminals < group + regions - 1:
            raise SystemExit("a line would wait for its terminal's reply, which the schedule doesn't know of")
        self.count, self.accounts, self.group, self.regions = count, accounts, group, regions
        self.terminals, self.numbered, self.share, self.waits = terminals, numbered, share, 0

    def define(self, folder):
        """Definitions, scripts, accounts, and the messages to come."""
        os.makedirs(folder)
        self.messages = Messages(self.accounts, self.terminals, self.numbered, 10, self.share)
        loaded = ",\n".join(f'["A{n:07d}", "{START}"]' for n in range(self.accounts))
        put(folder, "defs.toml", [
            f"regions = {[1] * self.regions}\nrouter = \"FOLD\"\nlog_group = {self.group}\n",
            "[[msdb]]\nname = \"ACCTS\"\n",
            f"fields = [[\"ACCT\", \"C\", 8], [\"BAL\", \"P\", 8]]\nload = [\n{loaded}\n]\n"])
        put(folder, "scripts.txt", [SCRIPTS])
        put(folder, "accounts.txt", [f"A{n:07d} {START}\n" for n in range(self.accounts)])

    def next_run(self, folder):
        """The messages and the schedule of the next run."""
        schedule = Schedule(self.regions, self.group)
        put(folder, "messages.txt", schedule.run(self.messages, self.count))
        put(folder, "schedule.txt", [f"{token}\n" for token in schedule.tokens])
        self.waits = schedule.waits


def emptied(folder, parts):
    """A copy of a folder beside it, in which these parts are empty."""
    copy = f"{folder}_empty"
    shutil.copytree(folder, copy, ignore=lambda _, names: [n for n in names if n.startswith(("peer", "replies"))])
    for part in parts:
        put(copy, part, [])
    return copy
