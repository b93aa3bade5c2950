"""Makes COVERAGE.md: how often each command got each answer in the recorded lists.

  coverage.py NAMED.TXT PACK... > COVERAGE.md

Ends with 1 if an answer occurs that document 01 does not allow for its command, if an allowed one is
missing without a reason, or if a line does not have the form of its command.
"""

import os
import sys
from collections import Counter

from lists import read_named, read_pack, split, why_stop

# -- What document 01 allows ---------------------------------------------------------------------------
# A row a command: its name, then the answers. The numbers above 100 follow the table "Where each call is
# turned back": 104 with a field, 101 and 103 with an old name, 102 with a new name, 105 to 107 as the rows
# say. The negative ones follow the corners, file by file.
ALLOWED = {
    0x01: ("create_child", "0 -20 101 102 103"),
    0x02: ("kill a job", "0 101 103"),
    0x03: ("Process::create_with_ext", "0 -20 101 102 103"),
    0x04: ("Process::start", "0 -20 -30 101 103 105"),
    0x05: ("exit a process", "0 101 103"),
    0x06: ("kill a process", "0 101 103"),
    0x07: ("set_critical_at_job", "0 -10 -27 101 103 104"),
    0x08: ("Thread::create_with_ext", "0 -20 101 102 103"),
    0x09: ("Thread::start", "0 101 103 105"),
    0x0A: ("kill a thread", "0 101 103"),
    0x0B: ("CurrentThread::exit", "0 101 103 105"),
    0x0C: ("finish a thread", "0 101 103 105"),
    0x0D: ("make a token", "0 101 102 103 104 106 107"),
    0x0E: ("drop a token", "0 101 103 106"),
    0x0F: ("set_policy_basic", "0 -20 -26 101 103 104"),
    0x10: ("set_policy_timer_slack", "0 -10 -20 101 103 104"),
    0x11: ("check_policy", "0 -30 101 103 104 106"),
    0x12: ("bind a level", "0 -20 -27 101 103 104"),
    0x13: ("hang up a level", "0 101 103 104 105"),
    0x14: ("raise", "0 1 2 3 4 5 -60 -61 101 103 104 105"),
    0x15: ("close", "0 1 2 3 4 5 -60 -61 101 103 105"),
    0x16: ("set_state", "0 -10 101 103 105"),
    0x17: ("set_strategy", "0 -10 -20 101 103 105"),
    0x18: ("get_process_handle", "0 -30 101 103 105"),
    0x19: ("begin a wait", "0 -60 101 103 104 105"),
    0x1A: ("poll a wait", "0 -21 -22 -23 -60 101 103 104 105"),
    0x1B: ("job information", "0 101 103"),
    0x1C: ("process information", "0 101 103"),
    0x1D: ("thread information", "0 101 103"),
    0x1E: ("suspend", "0 101 103 104 106 107"),
    0x1F: ("resume", "0 101 103 104 106"),
}

# Allowed by the words of document 01, but out of reach.
CANNOT = {
    (0x14, 0): "14 never answers 0: a raise is over in its own call only by -60 or -61; otherwise it is delivered "
               "and waits for a closing.",
    (0x15, 5): "15 never answers 5: only ProcessStarting goes to level 5, and its first closing is its end.",
    (0x15, -60): "15 never answers -60: a kill ends an exception wait inside the killing call, so the closing that "
                 "follows is 105.",
}

CASES = [f"M{n}" for n in range(1, 13)]
NO_CASE = {
    "M1": "no list: a job's own entry and its parent's never stand on the same condition, since `set_policy_basic` "
          "refuses or skips what the parent set and the inherited policy is fixed when the job is made. It is a "
          "claim about `merge` alone.",
}

# Fields behind an answer that is not a refusal.
FIELDS = {0x14: 1, 0x15: 1, 0x1B: 5, 0x1C: 5, 0x1D: 3}
OUTCOMES = {-60, -61, -21, -22, -23}
STOPS = ["unknown command", "cut operand", "count above 4"]


def answers(command):
    return [int(number) for number in ALLOWED[command][1].split()]


def columns():
    every = {answer for command in ALLOWED for answer in answers(command)}
    return sorted(every, key=lambda answer: (answer > 100, answer < 0, abs(answer)))


# -- Counting ------------------------------------------------------------------------------------------


class Count:
    def __init__(self):
        self.cells, self.stops, self.faults, self.packs = Counter(), Counter(), [], []

    def fault(self, where, text):
        self.faults.append(f"{where}: {text}")


def count_pack(count, path):
    name = os.path.basename(path)
    pack = read_pack(path)
    total, accepted = 0, 0
    for number, (calls, lines) in enumerate(pack, 1):
        got = count_list(count, f"{name}, list {number}", calls, lines.decode("ascii").splitlines())
        total, accepted = total + len(got), accepted + sum(answer >= 0 and answer <= 100 for answer in got)
    count.packs.append((name, len(pack), total, accepted, os.path.getsize(path)))


def count_list(count, where, data, lines):
    """The answers of one list; its cells and stops are counted."""
    calls, left = split(data)
    if len(lines) != len(calls) + (1 if left else 0):
        count.fault(where, f"{len(lines)} lines for {len(calls)} calls")
        return []
    got = [answer_of(count, where, number, call, line)
           for number, (call, line) in enumerate(zip(calls, lines), 1)]
    if left:
        count.stops[why_stop(left)] += 1
        if lines[-1] != f"{len(lines)} stop":
            count.fault(where, f"line {len(lines)} is not a stop")
    return got


def answer_of(count, where, number, call, line):
    words = line.split(" ")
    answer, fields = int(words[1]), len(words) - 2
    if words[0] != str(number):
        count.fault(where, f"line {number} has the number {words[0]}")
    if answer not in answers(call[0]):
        count.fault(where, f"line {number}: {call[0]:02x} answers {answer}")
    accepted = 0 <= answer <= 100 or (call[0] in (0x14, 0x15) and answer in OUTCOMES)
    if fields != (FIELDS.get(call[0], 0) if accepted else 0):
        count.fault(where, f"line {number}: {call[0]:02x} has {fields} fields")
    count.cells[call[0], answer] += 1
    return answer


def missing(count):
    for command in ALLOWED:
        for answer in answers(command):
            seen = count.cells[command, answer] > 0
            if seen == ((command, answer) in CANNOT):
                yield f"{command:02x} with {answer}: " + ("occurs, though it cannot" if seen else "never occurs")
    for stop in STOPS:
        if count.stops[stop] == 0:
            yield f"stop, {stop}: never occurs"


# -- Writing -------------------------------------------------------------------------------------------


def table(count):
    notes = {key: place for place, key in enumerate(CANNOT, 1)}
    head = columns()
    yield "| command | | " + " | ".join(str(answer) for answer in head) + " |"
    yield "|---|---|" + "---:|" * len(head)
    for command, (name, _) in ALLOWED.items():
        cells = [cell(count, command, answer, notes) for answer in head]
        yield f"| {command:02x} | {name} | " + " | ".join(cells) + " |"


def cell(count, command, answer, notes):
    if answer not in answers(command):
        return ""
    if (command, answer) in notes:
        return f"({notes[command, answer]})"
    return str(count.cells[command, answer])


def cases(named):
    names = {entry.name: entry.purpose for entry in named}
    for case in CASES:
        if case in names:
            yield f"| {case} | named/{case}.txt | {names[case]} |"
        elif case in NO_CASE:
            yield f"| {case} | | {NO_CASE[case]} |"
        else:
            sys.exit(f"coverage.py: no list for {case}")


def page(count, named):
    yield "# Coverage of the recorded lists"
    yield ""
    yield "Made by `coverage.py` from the packs (see record.sh): how often each command got each answer. An empty"
    yield "cell is an answer that document 01 does not allow for the command; a number in brackets is a note below."
    yield ""
    yield from table(count)
    yield ""
    yield from (f"{place}. {why}" for place, why in enumerate(CANNOT.values(), 1))
    yield ""
    yield "## Lines with `stop`"
    yield ""
    yield "| " + " | ".join(STOPS) + " |"
    yield "|" + "---:|" * len(STOPS)
    yield "| " + " | ".join(str(count.stops[stop]) for stop in STOPS) + " |"
    yield ""
    yield "## Packs"
    yield ""
    yield "| pack | lists | calls | answers 0 to 5 | bytes |"
    yield "|---|---:|---:|---:|---:|"
    yield from (f"| {name} | {lists} | {calls} | {100 * good // max(calls, 1)} % | {size} |"
                for name, lists, calls, good, size in count.packs)
    yield ""
    yield "## Cases of document 01"
    yield ""
    yield "| case | list | |"
    yield "|---|---|---|"
    yield from cases(named)
    yield ""
    yield "## Named lists in the order of named.pack"
    yield ""
    yield from (f"- {entry.name}: {entry.purpose}{place(entry)}" for entry in named)


def place(entry):
    return " (alone in counts.pack)" if entry.is_long() else ""


def main(source, *packs):
    count = Count()
    for path in packs:
        count_pack(count, path)
    print("\n".join(page(count, read_named(source))))
    wrong = count.faults + list(missing(count))
    for fault in wrong[:40]:
        print(f"coverage.py: {fault}", file=sys.stderr)
    sys.exit(1 if wrong else 0)


if __name__ == "__main__":
    if len(sys.argv) < 3:
        sys.exit(__doc__)
    main(*sys.argv[1:])
