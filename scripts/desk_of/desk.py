"""A desk: terminals ask, what comes within a few milliseconds is one run, and each terminal gets its replies."""
import os
import re
import selectors
import signal
import socket
import subprocess
import sys
import time
from collections import deque
from dataclasses import dataclass, field

from .bank import PAUSE, Bank, Refused, passes

NAME = re.compile(r"[A-Z][A-Z0-9]{0,7}")
# A request: a number, or none, a transaction, and perhaps its text.
REQUEST = re.compile(r"(?:([1-9]\d{0,17}) )?([A-Z][A-Z0-9]{0,7}(?: [ -~]{1,1000})?)")
BLOCK = 65536
# The most messages of one run.
MOST = 10_000


@dataclass
class Terminal:
    """What the desk knows of a terminal."""
    name: str
    last: int
    # What it asked and wasn't answered, oldest first: numbers and requests.
    asked: deque = field(default_factory=deque)
    link: "Link | None" = None

    def ask(self, number: int | None, request: str) -> None:
        """Takes a request in, unless it is one that waits already."""
        if number is None:
            number = max([self.last, *(one for one, _ in self.asked)]) + 1
        if all(one != number for one, _ in self.asked):
            self.asked.append((number, request))

    def answered(self, reply: str) -> None:
        """The oldest request got its reply."""
        number, _ = self.asked.popleft()
        self.last = max(self.last, number)
        if self.link is not None:
            self.link.say(f"{number} {reply}\n")


class Link:
    """A connection, or the desk's own standard input and output. It belongs to a terminal once that said its name."""

    def __init__(self, desk: "Desk", descriptors: tuple[int, int], close):
        self.desk, self.close_all = desk, close
        self.source, self.sink = descriptors
        self.text, self.terminal = b"", None

    def ready(self) -> None:
        """Takes in the lines that came."""
        try:
            block = os.read(self.source, BLOCK)
        except OSError:
            block = b""
        if not block:
            self.close()
            return
        *lines, self.text = (self.text + block).split(b"\n")
        for line in lines:
            self.take(line.decode("latin-1").removesuffix("\r"))

    def take(self, line: str) -> None:
        """A line: first the terminal's name, then requests."""
        if self.desk.ends:
            return
        if self.terminal is None:
            self.sit(line)
            return
        request = REQUEST.fullmatch(line)
        if request is None:
            self.say("0 NO REQUEST\n")
            return
        number, text = request.groups()
        self.terminal.ask(number and int(number), text)
        self.desk.came()

    def sit(self, name: str) -> None:
        """Takes the place of a terminal."""
        if not NAME.fullmatch(name):
            self.close()
            return
        self.terminal = self.desk.terminal(name)
        self.terminal.link = self
        self.say(f"LAST {self.terminal.last}\n")

    def say(self, text: str) -> None:
        """Sends text. Where the terminal is gone, it asks again when it comes back."""
        try:
            os.write(self.sink, text.encode("latin-1"))
        except OSError:
            self.close()

    def close(self) -> None:
        """Leaves the terminal."""
        if self.terminal is not None and self.terminal.link is self:
            self.terminal.link = None
        self.desk.forget(self)
        self.close_all()


class Run:
    """A run that is under way, and the terminals that have a message in it."""

    def __init__(self, bank: Bank, terminals: list[Terminal]):
        self.waiting = {terminal.name: terminal for terminal in terminals}
        self.messages, self.began = len(terminals), time.monotonic()
        self.text = b""
        lines = [f"{one.name} {number} {request}" for one in terminals for number, request in [one.asked[0]]]
        self.program = bank.start(lines)
        self.source = self.program.stdout.fileno()

    def ready(self) -> bool:
        """Hands on the replies that came. False at their end."""
        block = os.read(self.source, BLOCK)
        *lines, self.text = (self.text + block).split(b"\n")
        for line in lines:
            name, reply = line.decode("ascii").split(" ", 1)
            self.waiting.pop(name).answered(reply)
        return bool(block)

    def end(self) -> tuple[int, str]:
        """The status of the program, and what it said."""
        said = self.program.stderr.read().decode(errors="replace").strip()
        self.program.stdout.close()
        self.program.stderr.close()
        return self.program.wait(), said


class Desk:
    """The desk of a folder."""

    def __init__(self, bank: Bank, gather: float):
        self.bank, self.gather = bank, gather
        self.lasts = bank.last_numbers()
        self.terminals: dict[str, Terminal] = {}
        self.selector = selectors.PollSelector()
        self.run: Run | None = None
        # From when on a run may begin, if there is something to run.
        self.due: float | None = None
        self.own: Link | None = None
        self.ends = False
        # Of each run that ended well: its messages and seconds.
        self.figures: list[tuple[int, float]] = []
        self.again = 0

    def terminal(self, name: str) -> Terminal:
        """The terminal of a name."""
        if name not in self.terminals:
            self.terminals[name] = Terminal(name, self.lasts.get(name, 0))
        return self.terminals[name]

    # ---- who comes and goes

    def listen(self, path: str) -> None:
        """Lets terminals connect to a socket."""
        if os.path.exists(path):
            os.unlink(path)
        listener = socket.socket(socket.AF_UNIX, socket.SOCK_STREAM)
        listener.bind(path)
        listener.listen(128)
        self.selector.register(listener, selectors.EVENT_READ, lambda: self.meet(listener))

    def meet(self, listener: socket.socket) -> None:
        """A terminal connects."""
        link, _ = listener.accept()
        self.know(Link(self, (link.fileno(), link.fileno()), link.close))

    def type_in(self, name: str) -> None:
        """Lets a terminal type on standard input."""
        self.own = Link(self, (0, 1), lambda: None)
        self.know(self.own)
        self.own.sit(name)

    def know(self, link: Link) -> None:
        self.selector.register(link.source, selectors.EVENT_READ, link.ready)

    def forget(self, link: Link) -> None:
        """A link is gone. Where it was standard input, the desk ends when all is answered."""
        if link.source in self.selector.get_map():
            self.selector.unregister(link.source)
        if link is self.own:
            self.ends = True
            if link.terminal is not None:
                link.terminal.link = link

    # ---- runs

    def came(self) -> None:
        """A request came: what comes within a moment goes with it."""
        if self.due is None:
            self.due = time.monotonic() + self.gather

    def serve(self) -> None:
        """Serves until it is told to end, and nothing is under way."""
        while not (self.ends and self.run is None and self.due is None):
            for key, _ in self.selector.select(self.rest()):
                key.data()
            if self.run is None and self.due is not None and self.due <= time.monotonic():
                self.begin()

    def rest(self) -> float | None:
        """How long it may wait for what comes next."""
        if self.run is not None or self.due is None:
            return 1.0 if self.ends else None
        return max(0.0, self.due - time.monotonic())

    def begin(self) -> None:
        """Begins a run of what was asked, one message of each terminal."""
        asking = [one for one in self.terminals.values() if one.asked][:MOST]
        self.due = None
        if asking:
            self.run = Run(self.bank, asking)
            self.selector.register(self.run.source, selectors.EVENT_READ, self.reply)

    def reply(self) -> None:
        """The program says something, or ended."""
        run = self.run
        if run.ready():
            return
        self.selector.unregister(run.source)
        self.run = None
        status, said = run.end()
        if status != 0 and not passes(status):
            raise Refused(said)
        if status == 0:
            self.figures.append((run.messages, time.monotonic() - run.began))
        else:
            self.again += len(run.waiting)
        if any(one.asked for one in self.terminals.values()):
            self.due = time.monotonic() + (0.0 if status == 0 else PAUSE)

    def told(self) -> str:
        """What the runs cost."""
        messages = sum(count for count, _ in self.figures)
        seconds = sum(spent for _, spent in self.figures)
        each = 1000 * seconds / len(self.figures) if self.figures else 0
        return (f"desk: {len(self.figures)} runs, {messages} messages, {seconds:.2f} s, {each:.2f} ms a run; "
                f"{self.again} messages sent again")


def stop_on_signals(desk: Desk) -> None:
    """Lets SIGTERM and SIGINT end a desk behind the run that is under way."""
    wake, woken = socket.socketpair()
    wake.setblocking(False)
    signal.set_wakeup_fd(wake.fileno())

    def end(*_):
        desk.ends = True

    signal.signal(signal.SIGTERM, end)
    signal.signal(signal.SIGINT, end)
    desk.selector.register(woken, selectors.EVENT_READ, lambda: woken.recv(BLOCK))


def main(arguments) -> int:
    """Serves a folder. The status of the script."""
    if arguments.terminal and not NAME.fullmatch(arguments.terminal):
        print(f"desk: {arguments.terminal} is no terminal's name: 1 to 8 letters A to Z and digits, a letter first",
              file=sys.stderr)
        return 2
    try:
        desk = Desk(Bank(arguments.program, arguments.folder), arguments.gather / 1000)
        stop_on_signals(desk)
        if arguments.terminal:
            desk.type_in(arguments.terminal)
        else:
            desk.listen(arguments.socket)
        desk.serve()
    except (Refused, OSError, subprocess.SubprocessError) as fault:
        print(f"desk: {fault}", file=sys.stderr)
        return 1
    print(desk.told(), file=sys.stderr)
    return 0
