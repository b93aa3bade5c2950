#!/usr/bin/env python3
"""Runs both sides on the lists of bench.sh and prints tables: measure.py PROGRAMS RELEASE LISTS RUNS."""
import os
import pathlib
import re
import subprocess
import sys
import time

PROGRAMS, RELEASE, LISTS = (pathlib.Path(path) for path in sys.argv[1:4])
RUNS = int(sys.argv[4])
CALLRUN, REFERENCE = [str(PROGRAMS / "callrun")], [str(RELEASE / "reference")]
KINDS = ("mixed", "refusals", "information", "kills", "exceptions")


def output(command, name):
    with open(LISTS / name, "rb") as calls:
        return subprocess.run(command, stdin=calls, stdout=subprocess.PIPE, check=True).stdout


def seconds(command, name):
    """Wall time and processor time of a run."""
    with open(LISTS / name, "rb") as calls:
        begin = time.perf_counter()
        process = subprocess.Popen(command, stdin=calls, stdout=subprocess.DEVNULL)
        _, status, used = os.wait4(process.pid, 0)
        wall = time.perf_counter() - begin
    process.returncode = status
    if status != 0:
        sys.exit(f"measure.py: {command[0]} ended with {status}")
    return wall, used.ru_utime + used.ru_stime


def best(name, runs, ours=CALLRUN, theirs=REFERENCE):
    """The shortest times of both sides, which take turns: wall times, their ratio, and that of processor times."""
    pairs = [(seconds(ours, name), seconds(theirs, name)) for _ in range(runs)]
    (wall, used), (other_wall, other_used) = ([min(times) for times in zip(*side)] for side in zip(*pairs))
    return f"{wall:.3f}", f"{other_wall:.3f}", f"{wall / other_wall:.1f}", f"{used / other_used:.1f}"


def instructions(command, name):
    """Instructions of the whole run, counted by callgrind."""
    with open(LISTS / name, "rb") as calls:
        run = subprocess.run(
            ["valgrind", "--tool=callgrind", "--callgrind-out-file=/dev/null", *command],
            stdin=calls, stdout=subprocess.DEVNULL, stderr=subprocess.PIPE, check=True,
        )
    return int(re.search(rb"Collected : (\d+)", run.stderr).group(1))


def memory(command, name):
    """The most memory held, in KiB."""
    with open(LISTS / name, "rb") as calls:
        run = subprocess.run(
            ["/usr/bin/time", "-f", "%M", *command],
            stdin=calls, stdout=subprocess.DEVNULL, stderr=subprocess.PIPE, check=True,
        )
    return int(run.stderr.split()[-1])


def stack(command, calls):
    """The smallest limit on the stack, in KiB, under which the run ends as it does with none."""

    def ends(limit):
        script = f'ulimit -s {limit} && exec "$@"'
        run = subprocess.run(["sh", "-c", script, "sh", *command], input=calls, capture_output=True)
        return run.returncode == 0 and run.stdout == whole

    whole = subprocess.run(command, input=calls, stdout=subprocess.PIPE, check=True).stdout
    low, high = 0, 8192
    while high - low > 1:
        middle = (low + high) // 2
        low, high = (low, middle) if ends(middle) else (middle, high)
    return high


def deep_list():
    """The longest cascade: 32 jobs in a chain, each with a process critical to the job above, as in `deepest`."""
    calls = b""
    for job in range(1, 32):
        calls += bytes([1, job - 1, job, 3, job, job, 7, job, job - 1, 0])
        calls += bytes([3, job, 32 + job, 8, 32 + job, job])
    calls += bytes([3, 31, 0, 7, 0, 31, 0, 8, 0, 0, 3, 0, 32, 7, 32, 0, 0])
    return calls + bytes([9, 0, 5, 0, 7, 0, 0, 0, 0, 0, 0, 0, 12, 0, 0x1b, 0])


def row(*cells):
    print("| " + " | ".join(str(cell) for cell in cells) + " |", flush=True)


def head(*cells):
    print()
    row(*cells)
    row(*("---" for _ in cells))


def main():
    times = ("port s", "Rust s", "ratio", "processor time, ratio")
    head("10^6 calls", "refused above 100", *times, "port instructions a call", "Rust", "ratio")
    for kind in KINDS:
        lines = output(CALLRUN, kind)
        if lines != output(REFERENCE, kind):
            sys.exit(f"measure.py: {kind}: the lines differ")
        refused = len(re.findall(rb"^\d+ 10[1-7]$", lines, re.M)) / 10**6
        mine, yours = (instructions(side, kind + ".tenth") / 10**5 for side in (CALLRUN, REFERENCE))
        row(kind, f"{refused:.0%}", *best(kind, RUNS), f"{mine:.0f}", f"{yours:.0f}", f"{mine / yours:.1f}")

    head("mixed list", *times, "port KiB", "Rust KiB")
    for power in (4, 5, 6, 7):
        sizes = (memory(side, str(power)) for side in (CALLRUN, REFERENCE))
        row(f"10^{power} calls", *best(str(power), RUNS if power < 7 else 2), *sizes)

    head("12,000 short lists", *times)
    dumplists, dump = [str(PROGRAMS / "dumplists")], [*REFERENCE, "--dump", "--lists"]
    row("trees, lines and records", *best("short", RUNS, dumplists, dump))

    head("smallest stack limit", "KiB")
    row("callrun, nothing to do", stack(CALLRUN, b""))
    row("callrun, 10^4 mixed calls", stack(CALLRUN, (LISTS / "4").read_bytes()))
    row("callrun, the longest cascade", stack(CALLRUN, deep_list()))
    row("deepest", stack([str(PROGRAMS / "deepest")], b""))
    row("Rust, the longest cascade", stack(REFERENCE, deep_list()))


main()
