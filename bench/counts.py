#!/usr/bin/env python3
# Instructions and copies of the tables of each call, accepted and refused, by callgrind: a list with the calls less the
# same list without them, divided by the number of calls. counts.py PROGRAM [INSTRUCTIONS OF ONE COPY]
import re
import struct
import subprocess
import sys
import tempfile

PROGRAM = sys.argv[1]
MANY = 400


def v(n):
    return struct.pack("<q", n)


def h(n):
    return struct.pack("<H", n)


def w(n):
    return struct.pack("<I", n)


def rows(calls):
    return b"".join(calls)


JOBS = rows(bytes([1, 0, k]) for k in range(1, 32))
PROCESSES = rows(bytes([3, 0, k]) for k in range(64))
ONE = bytes([3, 0, 0])
THREADS = ONE + rows(bytes([8, 0, k]) for k in range(128))
STARTED = THREADS + rows(bytes([9, k]) for k in range(128))
PAIRS = PROCESSES + rows(bytes([8, k, k]) for k in range(64))
BOUND = STARTED + rows(bytes([0x12, 2, k]) for k in range(128))
WAITING = BOUND + rows(bytes([0x14, k]) + h(0x8000) for k in range(128))
IN_WAIT = STARTED + rows(bytes([0x19, k]) + h(3) for k in range(128))
TOKENS = THREADS + rows(bytes([0xd, k, 2, 0]) for k in range(64))
N = range(128)

# command: what is there before, accepted calls, a refused call (an old name never made)
TABLE = {
    0x01: (b"", [bytes([1, 0, k]) for k in range(1, 32)], bytes([1, 9, 10])),
    0x02: (JOBS, [bytes([2, k]) for k in range(1, 32)], bytes([2, 9])),
    0x03: (b"", [bytes([3, 0, k]) for k in range(64)], bytes([3, 9, 1])),
    0x04: (PAIRS, [bytes([4, k, k]) for k in range(64)], bytes([4, 9, 1])),
    0x05: (PROCESSES, [bytes([5, k]) + v(7) for k in range(64)], bytes([5, 9]) + v(7)),
    0x06: (PROCESSES, [bytes([6, k]) for k in range(64)], bytes([6, 9])),
    0x07: (PROCESSES, [bytes([7, k, 0, 1]) for k in range(64)], bytes([7, 9, 0, 1])),
    0x08: (ONE, [bytes([8, 0, k]) for k in N], bytes([8, 9, 1])),
    0x09: (THREADS, [bytes([9, k]) for k in N], bytes([9, 9])),
    0x0a: (STARTED, [bytes([0xa, k]) for k in N], bytes([0xa, 9])),
    0x0b: (STARTED, [bytes([0xb, k]) for k in N], bytes([0xb, 9])),
    0x0c: (STARTED, [bytes([0xc, k]) for k in N], bytes([0xc, 9])),
    0x0d: (THREADS, [bytes([0xd, k, 2, 0]) for k in range(64)], bytes([0xd, 1, 2, 9])),
    0x0e: (TOKENS, [bytes([0xe, k]) for k in range(64)], bytes([0xe, 9])),
    0x0f: (JOBS, [bytes([0xf, 1, 0, 4, 1, 1, 2, 1, 3, 1, 4, 1])] * MANY, bytes([0xf, 9, 0, 4, 1, 1, 2, 1, 3, 1, 4, 1])),
    0x10: (JOBS, [bytes([0x10, 1]) + v(5) + b"\0"] * MANY, bytes([0x10, 9]) + v(5) + b"\0"),
    0x11: (ONE, [bytes([0x11, 0, 3])] * MANY, bytes([0x11, 9, 3])),
    0x12: (THREADS, [bytes([0x12, 2, k]) for k in N], bytes([0x12, 2, 9])),
    0x13: (BOUND, [bytes([0x13, 2, k]) for k in N], bytes([0x13, 2, 9])),
    0x14: (BOUND, [bytes([0x14, k]) + h(0x8000) for k in N], bytes([0x14, 9]) + h(0x8000)),
    0x15: (WAITING, [bytes([0x15, k]) for k in N], bytes([0x15, 9])),
    0x16: (WAITING, [bytes([0x16, 1]) + w(0)] * MANY, bytes([0x16, 9]) + w(0)),
    0x17: (ONE + bytes([8, 0, 1, 9, 1, 0x12, 1, 0, 0x14, 1]) + h(0x8000), [bytes([0x17, 1]) + w(1)] * MANY, bytes([0x17, 9]) + w(1)),
    0x18: (ONE + bytes([8, 0, 1, 9, 1, 0x12, 1, 0, 0x14, 1]) + h(0x8000), [bytes([0x18, 1])] * MANY, bytes([0x18, 9])),
    0x19: (STARTED, [bytes([0x19, k]) + h(3) for k in N], bytes([0x19, 9]) + h(3)),
    0x1a: (IN_WAIT, [bytes([0x1a, k, 1]) for k in N], bytes([0x1a, 9, 1])),
    0x1b: (JOBS, [bytes([0x1b, 1])] * MANY, bytes([0x1b, 9])),
    0x1c: (PROCESSES, [bytes([0x1c, 1])] * MANY, bytes([0x1c, 9])),
    0x1d: (THREADS, [bytes([0x1d, 1])] * MANY, bytes([0x1d, 9])),
    0x1e: (THREADS, [bytes([0x1e, 2, 1])] * MANY, bytes([0x1e, 2, 9])),
    0x1f: (THREADS + bytes([0x1e, 2, 1]) * MANY, [bytes([0x1f, 2, 1])] * MANY, bytes([0x1f, 2, 9])),
}


def lines(data):
    return subprocess.run([PROGRAM], input=data, capture_output=True).stdout.split(b"\n")


def cost(data):
    with tempfile.NamedTemporaryFile() as out:
        subprocess.run(
            ["valgrind", "--tool=callgrind", "--callgrind-out-file=" + out.name, PROGRAM],
            input=data, capture_output=True, check=True)
        text = subprocess.run(["callgrind_annotate", out.name], capture_output=True, text=True).stdout
    total = int(re.search(r"([\d,]+) \(100.0%\)  PROGRAM TOTALS", text).group(1).replace(",", ""))
    copied = sum(int(n.replace(",", "")) for n in re.findall(r"([\d,]+) \([ \d.]+%\)  \S*mem(?:cpy|move)", text))
    return total, copied


# A list that is empty reads and writes nothing: each begins with a call, so that what the first one brings is in both counts.
FIRST = bytes([0x1b, 0])


def measure(before, calls):
    base, both = cost(FIRST + before), cost(FIRST + before + b"".join(calls))
    # callgrind_annotate leaves out what is below 1%, so a difference of two counts may be a little below 0
    return [max(0.0, (b - a) / len(calls)) for a, b in zip(base, both)]


def main():
    # one copy: what the C library takes for 7,552 bytes, as two rows that differ by one copy show
    unit = float(sys.argv[2]) if len(sys.argv) > 2 else 736.0
    print("| call | accepted | of these copying | copies | refused with | instructions | of these copying | copies |")
    print("|---|---|---|---|---|---|---|---|")
    for code, (before, calls, bad) in TABLE.items():
        got = lines(before + b"".join(calls))[-2].split()
        if got[1] not in (b"0", b"2", b"1", b"-61"):
            print("not accepted: %02x" % code, got, file=sys.stderr)
        no = lines(bad * 2)[-2].split()[1]
        ok, copy = measure(before, calls)
        bad_ok, bad_copy = measure(b"", [bad] * MANY)
        print("| %02x | %.0f | %.0f | %.1f | %s | %.0f | %.0f | %.1f |" % (
            code, ok, copy, copy / unit, no.decode(), bad_ok, bad_copy, bad_copy / unit), flush=True)


main()
