"""Bytes as texts of a file, and draws that are the same each time."""


def runs(data):
    """The runs of one byte, as pairs of the byte and how often it stands."""
    found = []
    for byte in data:
        if found and found[-1][0] == byte:
            found[-1][1] += 1
        else:
            found.append([byte, 1])
    return found


def of_bytes(data):
    """Bytes as parts: a run of 5 or more of one byte as a part with a count, all else as parts without."""
    if not data:
        return "-"
    parts = []
    is_open = False
    for byte, count in runs(data):
        if count >= 5:
            parts.append(f"{count}*{byte:02x}")
            is_open = False
        elif is_open:
            parts[-1] += f"{byte:02x}" * count
        else:
            parts.append(f"{byte:02x}" * count)
            is_open = True
    return ",".join(parts)


def of_text(data, keep=b"", escaped=b"\\>"):
    """A text with backslashes where bytes aren't printable, and long runs with a count."""
    out = ""
    left = len(data)
    for byte, count in runs(data):
        left -= count
        plain = (32 <= byte <= 126 or byte in keep) and byte not in escaped
        if count >= 40 or not plain:
            out += "\\{" + of_bytes(bytes([byte]) * count) + "}"
        elif byte == 32 and left == 0:
            out += "\\{" + of_bytes(b" " * count) + "}"
        else:
            out += chr(byte) * count
    return out


class Draws:
    """Numbers that look drawn, and are the same each time."""

    def __init__(self, seed):
        self.state = seed

    def below(self, limit):
        self.state = (6364136223846793005 * self.state + 1442695040888963407) % 2**64
        return (self.state >> 33) % limit

    def one_of(self, choices):
        return choices[self.below(len(choices))]

    def bytes(self, count):
        return bytes(self.below(256) for _ in range(count))


def block(key, wanted, text):
    """A block: what is wanted of a text, and its lines."""
    head = f"=== {key}: {of_text(wanted.encode())}"
    if not text:
        return head
    if text == b"\n":
        return head + "\n\\{0a}\\"
    shown = of_text(text, keep=b"\n", escaped=b"\\")
    return head + "\n" + (shown[:-1] if shown.endswith("\n") else shown + "\\")
