#!/usr/bin/env python3
"""Runs the examples of the manual and packs them for replaying.

  manual.py PROGRAM MANUAL.MD OUT.PACK

PROGRAM reads commands from standard input and writes a line for each: callrun, or the built reference. An
example is a block fenced as `calls`, a list from a fresh root. A row has three columns with two or more spaces
between them: whole calls in hexadecimal, the lines that come out, joined by ` | `, and a remark, which may be
missing. Ends with 1 and the place in the manual if a line differs, if a row has not this form, or if a command
of 01 to 1f occurs in no example. The pack is written only if all agree: for each example its calls and its
lines, as README.md here says.
"""

import re
import subprocess
import sys

sys.dont_write_bytecode = True

from lists import OPERANDS, piece, split  # noqa: E402

FENCE = "```"
ROW = re.compile(r"((?:[0-9a-f]{2} )*[0-9a-f]{2}) {2,}(\S+(?: \S+)*)(?: {2,}\S.*)?")


class Wrong(Exception):
    """What is wrong, and the line of the manual where it is."""

    def __init__(self, place, what):
        super().__init__(what)
        self.place = place


class Example:
    """The calls, and the lines that the manual gives for them, each with its place."""

    def __init__(self, place):
        self.place, self.calls, self.lines = place, b"", []

    def add(self, place, row):
        found = ROW.fullmatch(row)
        if found is None:
            raise Wrong(place, "not bytes, lines and a remark with two spaces between them")
        data, lines = bytes.fromhex(found.group(1)), found.group(2).split(" | ")
        calls, rest = split(data)
        if len(lines) != len(calls) + (1 if rest else 0):
            raise Wrong(place, f"{len(calls)} whole calls and {len(lines)} lines")
        self.calls += data
        self.lines += [(place, line) for line in lines]


# -- Reading the manual --------------------------------------------------------------------------------


def examples(text):
    found, fence, example = [], None, None
    for place, row in enumerate(text.split("\n"), 1):
        if fence is None and row.startswith(FENCE):
            fence = place
            if row[len(FENCE):].strip() == "calls":
                example = Example(place)
                found.append(example)
        elif fence is not None and row.rstrip() == FENCE:
            fence = example = None
        elif example is not None:
            example.add(place, row)
    if fence is not None:
        raise Wrong(fence, "the block has no end")
    return found


def check_every_command(found):
    used = {call[0] for example in found for call in split(example.calls)[0]}
    missing = [f"{command:02x}" for command in OPERANDS if command not in used]
    if missing:
        raise Wrong(1, "no example has the command " + ", ".join(missing))


# -- Running it ----------------------------------------------------------------------------------------


def run(program, example):
    """What the program writes for the calls; it is to be the manual's lines."""
    done = subprocess.run([program], input=example.calls, capture_output=True, timeout=60)
    if done.returncode != 0:
        raise Wrong(example.place, f"the program ended with {done.returncode}: {done.stderr.decode().strip()}")
    written = done.stdout.decode().split("\n")
    if written.pop() != "":
        raise Wrong(example.place, "the last line that the program wrote has no newline")
    for (place, line), other in zip(example.lines, written):
        if line != other:
            raise Wrong(place, f"the manual has `{line}`, the program wrote `{other}`")
    if len(written) != len(example.lines):
        raise Wrong(example.place, f"the manual has {len(example.lines)} lines, the program wrote {len(written)}")
    return done.stdout


def main(program, manual, pack):
    with open(manual, encoding="utf-8") as file:
        text = file.read()
    try:
        found = examples(text)
        check_every_command(found)
        entries = [piece(example.calls) + piece(run(program, example)) for example in found]
    except Wrong as wrong:
        print(f"{manual}:{wrong.place}: {wrong}", file=sys.stderr)
        return 1
    with open(pack, "wb") as file:
        file.write(b"".join(entries))
    print(f"{len(entries)} examples agree")
    return 0


if __name__ == "__main__":
    if len(sys.argv) != 4:
        sys.exit(__doc__)
    sys.exit(main(*sys.argv[1:]))
