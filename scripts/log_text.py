"""The reply lines of a log, read from its format."""


class Cut:
    """Bytes, taken piece by piece."""

    def __init__(self, data):
        self.data, self.at = data, 0

    def take(self, count):
        assert self.at + count <= len(self.data), f"cut short at {self.at}"
        self.at += count
        return self.data[self.at - count:self.at]

    def number(self, count):
        return int.from_bytes(self.take(count), "big")

    def left(self):
        return len(self.data) - self.at


def reply_of(entry):
    """The reply line of an entry: here each transaction is Done."""
    entry.take(8)
    assert entry.number(1) == 0, "an entry that isn't Done"
    line = entry.take(entry.number(2))
    reply = entry.take(entry.number(2))
    return line.split()[0] + b" OK " + reply + b"\n"


def replies(log):
    """The reply lines of the log's entries, in order: the front, then groups up to the first closed gate."""
    log, lines = Cut(log), []
    assert log.take(9) in (b"\x01IMSFPLG1", b"\x01IMSFPLG2"), "no open front"
    log.take(log.number(4))
    log.take(log.number(4))
    while log.left() and log.number(1) == 1:
        body = Cut(log.take(log.number(8)))
        while body.left():
            lines.append(reply_of(Cut(body.take(body.number(8)))))
    return lines
