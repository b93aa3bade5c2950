"""What the scripts here share: the operand lengths of the commands, packs, batches and named.txt."""

import re
import struct

# Operand bytes behind each command byte, as document 01 lists them. 0f always has eleven.
OPERANDS = {
    0x01: 2, 0x02: 1, 0x03: 2, 0x04: 2, 0x05: 9, 0x06: 1, 0x07: 3, 0x08: 2, 0x09: 1, 0x0A: 1, 0x0B: 1,
    0x0C: 1, 0x0D: 3, 0x0E: 1, 0x0F: 11, 0x10: 10, 0x11: 2, 0x12: 2, 0x13: 2, 0x14: 3, 0x15: 1, 0x16: 5,
    0x17: 5, 0x18: 1, 0x19: 3, 0x1A: 2, 0x1B: 1, 0x1C: 1, 0x1D: 1, 0x1E: 2, 0x1F: 2,
}


def why_stop(data):
    """Why the front of `data` is no call, or None if it is one."""
    if data[0] not in OPERANDS:
        return "unknown command"
    if len(data) < 1 + OPERANDS[data[0]]:
        return "cut operand"
    if data[0] == 0x0F and data[3] > 4:
        return "count above 4"
    return None


def split(data):
    """The calls of a list, and the bytes left where it stops (empty if it does not)."""
    calls, place = [], 0
    while place < len(data) and why_stop(data[place:place + 12]) is None:
        end = place + 1 + OPERANDS[data[place]]
        calls.append(data[place:end])
        place = end
    return calls, data[place:]


def hexes(data):
    return " ".join(f"{byte:02x}" for byte in data)


# -- Packs and batches -----------------------------------------------------------------------------


def pieces(data):
    """The pieces of a file in which each stands behind its length in 4 little-endian bytes."""
    place = 0
    while place < len(data):
        (length,) = struct.unpack_from("<I", data, place)
        yield data[place + 4:place + 4 + length]
        place += 4 + length


def piece(data):
    return struct.pack("<I", len(data)) + data


def read_pack(path):
    """The entries of a pack: calls and lines."""
    with open(path, "rb") as file:
        every = list(pieces(file.read()))
    return list(zip(every[0::2], every[1::2]))


# -- named.txt ---------------------------------------------------------------------------------------


class Named:
    """A named list: its rows are (bytes, comment), one for each line of the source."""

    def __init__(self, name, purpose):
        self.name, self.purpose, self.rows = name, purpose, []

    def calls(self):
        return b"".join(data for data, _ in self.rows)

    def is_long(self):
        """Whether it stands in counts.pack and not in named.pack."""
        return self.name.startswith("counts-")


def read_named(path):
    lists = []
    with open(path, encoding="utf-8") as file:
        for line in file:
            code, _, comment = line.strip().partition(";")
            if code.startswith("list "):
                name, purpose = line.strip()[5:].split(":", 1)
                lists.append(Named(name, purpose.strip()))
            elif code and not code.startswith("#"):
                lists[-1].rows.append((row(code), comment.strip()))
    return lists


def row(code):
    """The bytes of one line, repeated if it begins with `for N in A..B:`, up or down."""
    loop = re.fullmatch(r"for N in ([0-9a-f]+)\.\.([0-9a-f]+): (.*)", code.strip())
    if loop is None:
        return bytes.fromhex(code)
    first, last = int(loop[1], 16), int(loop[2], 16)
    numbers = range(first, last + 1) if first <= last else range(first, last - 1, -1)
    return bytes(byte(word, n) for n in numbers for word in loop[3].split())


def byte(word, n):
    if not word.startswith("N"):
        return int(word, 16)
    return n + (int(word[1:], 16) if word[1:] else 0)
