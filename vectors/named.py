"""Makes the batch of named.txt, and the readable texts below named/ from the recorded packs.

  named.py batch NAMED.TXT short|long > batch     the lists without, or only, the long counts list
  named.py texts NAMED.TXT NAMED.PACK COUNTS.PACK FOLDER
"""

import os
import sys

from lists import hexes, piece, read_named, read_pack, split

# A line of the source that holds more calls than this is shown by its first and last ones.
SHOWN = 140
EDGE = 3


def chosen(lists, length):
    return [named for named in lists if named.is_long() == (length == "long")]


def batch(source, length):
    for named in chosen(read_named(source), length):
        sys.stdout.buffer.write(piece(named.calls()))


def texts(source, short_pack, long_pack, folder):
    lists = read_named(source)
    short = zip(chosen(lists, "short"), read_pack(short_pack), strict=True)
    long = zip(chosen(lists, "long"), read_pack(long_pack), strict=True)
    for named, (calls, lines) in list(short) + list(long):
        if calls != named.calls():
            sys.exit(f"named.py: the pack does not hold {named.name}")
        with open(os.path.join(folder, named.name + ".txt"), "w", encoding="utf-8") as file:
            file.write(text(named, lines.decode("ascii").splitlines()))


def text(named, lines):
    """The list's calls, each with the line that the Rust wrote, and the comments of the source."""
    out = [f"# {named.name}: {named.purpose}", "# command bytes | the Rust's line"]
    rest = iter(lines)
    for data, comment in named.rows:
        calls, left = split(data)
        rows = [(hexes(call), next(rest)) for call in calls]
        if left:
            rows.append((hexes(left), next(rest)))
        out.append(f"; {comment}")
        out += [f"{code:<36} | {line}" for code, line in shortened(rows)]
    if next(rest, None) is not None:
        sys.exit(f"named.py: {named.name} has more lines than calls")
    return "\n".join(out) + "\n"


def shortened(rows):
    if len(rows) <= SHOWN:
        return rows
    between = f"({len(rows) - 2 * EDGE} more)"
    return rows[:EDGE] + [(between, between)] + rows[-EDGE:]


if __name__ == "__main__":
    if sys.argv[1:2] == ["batch"]:
        batch(*sys.argv[2:])
    elif sys.argv[1:2] == ["texts"]:
        texts(*sys.argv[2:])
    else:
        sys.exit(__doc__)
