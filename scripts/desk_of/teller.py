"""A teller's end of a desk's socket: it asks one thing at a time, and asks again whatever broke in between."""
import socket
import time

PAUSE = 0.02


class Teller:
    """A terminal that numbers its requests from 1, and keeps each until its reply is there."""

    def __init__(self, path: str, name: str):
        self.path, self.name = path, name
        self.asked = 0
        # How often it connected.
        self.links = 0
        self.link, self.lines = None, None

    def connect(self) -> None:
        """Connects, and says the terminal's name."""
        while self.link is None:
            try:
                self.link = socket.socket(socket.AF_UNIX, socket.SOCK_STREAM)
                self.link.connect(self.path)
                self.link.sendall(f"{self.name}\n".encode())
                self.lines = self.link.makefile("r", encoding="ascii", newline="\n")
                word, last = self.line().split()
                assert word == "LAST" and int(last) <= self.asked, (self.name, word, last, self.asked)
                self.links += 1
            except OSError:
                self.close()
                time.sleep(PAUSE)

    def line(self) -> str:
        """The next whole line. Fails where the desk is gone."""
        line = self.lines.readline()
        if not line.endswith("\n"):
            raise ConnectionResetError
        return line[:-1]

    def close(self) -> None:
        """Leaves the desk."""
        if self.link is not None:
            self.link.close()
        self.link = None

    def ask(self, request: str) -> str:
        """Asks, and asks again under the same number where the desk breaks off. The reply, behind its number."""
        self.asked += 1
        while True:
            self.connect()
            try:
                self.link.sendall(f"{self.asked} {request}\n".encode())
                number, reply = self.line().split(" ", 1)
                assert int(number) == self.asked, (self.name, number, self.asked)
                return reply
            except OSError:
                self.close()
