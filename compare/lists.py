#!/usr/bin/env python3
"""Small work on command lists for the scripts here: lists.py COMMAND ARGUMENTS, each a function below.
A batch is a run of lists, each behind its length in 4 little-endian bytes; a pack has the lines behind each list."""
import pathlib
import random
import socket
import subprocess
import sys

TIMEOUT = 60


def pieces(data):
    """The pieces of a batch or a pack."""
    at = 0
    while at < len(data):
        length = int.from_bytes(data[at : at + 4], "little")
        yield data[at + 4 : at + 4 + length]
        at += 4 + length


def behind_length(piece):
    return len(piece).to_bytes(4, "little") + piece


def lines(program, calls):
    """What a program writes for a list, and how it ends."""
    run = subprocess.run([program], input=calls, capture_output=True, timeout=TIMEOUT)
    return run.stdout, run.returncode


# -- Making inputs ------------------------------------------------------------------------------


def seeds(pack, folder, every):
    """Writes one list in `every` of a pack to a file of its own, and one input that is no command."""
    lists = list(pieces(pathlib.Path(pack).read_bytes()))[::2]
    folder = pathlib.Path(folder)
    folder.mkdir(parents=True, exist_ok=True)
    for number, calls in enumerate(lists[:: int(every)]):
        (folder / f"{number:04}").write_bytes(calls)
    (folder / "stop").write_bytes(b"\xff")


def cuts(batch):
    """A batch of every list of a batch cut at every byte."""
    for calls in pieces(pathlib.Path(batch).read_bytes()):
        for length in range(len(calls)):
            sys.stdout.buffer.write(behind_length(calls[:length]))


def folder(path):
    """A batch of the files of a folder."""
    for file in sorted(pathlib.Path(path).iterdir()):
        if file.is_file():
            sys.stdout.buffer.write(behind_length(file.read_bytes()))


# -- Comparing ----------------------------------------------------------------------------------


def first(batch, ours, theirs):
    """Shows where two outputs over a batch begin to differ: the list, its bytes and both lines."""
    number = 0
    with open(ours, "rb") as left, open(theirs, "rb") as right:
        while True:
            one, other = left.readline(), right.readline()
            if one != other:
                break
            if not one:
                return
            number += one == b"end\n"
    calls = next((p for n, p in enumerate(pieces(pathlib.Path(batch).read_bytes())) if n == number), b"")
    print(f"list {number} (from 0): {calls.hex(' ')}")
    print(f"program:   {one.decode(errors='replace').rstrip()}")
    print(f"reference: {other.decode(errors='replace').rstrip()}")


def single(callrun, reference, batch):
    """Runs each list of a batch by itself on both programs: lines and exit status."""
    count = 0
    for calls in pieces(pathlib.Path(batch).read_bytes()):
        ours, theirs = lines(callrun, calls), lines(reference, calls)
        if ours != theirs:
            sys.exit(f"list {count} (from 0) differs: {calls.hex(' ')}\nprogram {ours}\nreference {theirs}")
        count += 1
    print(f"{count} lists by themselves: the same lines")


def memcheck(callrun, batch):
    """Runs each list of a batch under valgrind's memcheck: no error, and the same lines as without."""
    count = 0
    for calls in pieces(pathlib.Path(batch).read_bytes()):
        run = subprocess.run(["valgrind", "-q", "--error-exitcode=9", callrun], input=calls, capture_output=True)
        if run.returncode != 0 or run.stderr or run.stdout != lines(callrun, calls)[0]:
            sys.exit(f"memcheck: list {count} (from 0): {calls.hex(' ')}\n{run.stderr.decode(errors='replace')}")
        count += 1
    print(f"{count} lists under memcheck: no error")


# -- Pieces and ends ----------------------------------------------------------------------------


def fed(program, parts):
    """What a program writes if each read gets one of the parts: a packet socket keeps them apart."""
    ours, theirs = socket.socketpair(socket.AF_UNIX, socket.SOCK_SEQPACKET)
    with subprocess.Popen([program], stdin=theirs, stdout=subprocess.PIPE) as process:
        theirs.close()
        ours.settimeout(TIMEOUT)
        for part in parts:
            try:
                ours.send(part)
            except ConnectionError:  # it has stopped
                break
        ours.close()
        return process.stdout.read()


def cut_up(calls, seed, largest):
    """A list in parts of random sizes."""
    rng = random.Random(seed)
    at = 0
    while at < len(calls):
        size = rng.randint(1, largest)
        yield calls[at : at + size]
        at += size


def parted(callrun, batch):
    """Feeds each list in parts of 1 byte, of up to 7 and of up to 300, and byte by byte through a pipe."""
    count = 0
    for calls in pieces(pathlib.Path(batch).read_bytes()):
        whole = lines(callrun, calls)[0]
        for seed, largest in enumerate((1, 7, 300)):
            if fed(callrun, cut_up(calls, seed, largest)) != whole:
                sys.exit(f"parts of at most {largest} bytes (seed {seed}) differ: {calls.hex(' ')}")
        with subprocess.Popen([callrun], stdin=subprocess.PIPE, stdout=subprocess.PIPE, bufsize=0) as process:
            for byte in calls:
                try:
                    process.stdin.write(bytes([byte]))
                except ConnectionError:  # it has stopped
                    break
            process.stdin.close()
            if process.stdout.read() != whole:
                sys.exit(f"bytes through a pipe differ: {calls.hex(' ')}")
        count += 1
    print(f"{count} lists in parts: the same bytes")


ENDS = (
    ("closed output", '"$1" <"$2" >&-'),
    ("full output", '"$1" <"$2" >/dev/full'),
    ("a reader that leaves", '"$1" <"$2" | head -n 1 >/dev/null'),
    ("a directory as input", '"$1" </'),
    ("closed input", '"$1" <&-'),
    ("a closed error output too", '"$1" <"$2" >&- 2>&-'),
    ("empty input", '"$1" </dev/null'),
    ("endless zeros", '"$1" </dev/zero'),
)


def ends(callrun, calls):
    """Each way to fail ends at once, with at most one message."""
    for name, command in ENDS:
        try:
            run = subprocess.run(["sh", "-c", command, "sh", callrun, calls], capture_output=True, timeout=10)
        except subprocess.TimeoutExpired:
            sys.exit(f"{name}: no end within 10 s")
        messages = run.stderr.decode(errors="replace").splitlines()
        if len(messages) > 1:
            sys.exit(f"{name}: {len(messages)} messages: {messages[:3]}")
        print(f"{name}: ends, {messages[0] if messages else 'no message'}")


if __name__ == "__main__":
    commands = (seeds, cuts, folder, first, single, memcheck, parted, ends)
    {command.__name__: command for command in commands}[sys.argv[1]](*sys.argv[2:])
