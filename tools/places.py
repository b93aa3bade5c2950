#!/usr/bin/env python3
"""Counts, in crates/*/src, the places where the code may stand in an older form than Rattle now has.

    python3 tools/places.py [--list] [FOLDER]

FOLDER is a checkout; --list prints the places. A place is found by its text; whether it is one is for a reader.
"""
import collections
import pathlib
import re
import sys

FUNCTION = re.compile(r"^( *)(?:pub )?fn (\w+)", re.M)


def sources(root):
    for path in sorted(root.glob("crates/*/src/**/*.rt")):
        text = re.sub(r"//[^\n]*", "", path.read_text())
        yield str(path.relative_to(root / "crates")), text


def functions(text):
    """Each function's name and text, its contract included."""
    for found in FUNCTION.finditer(text):
        indent = found.group(1)
        end = text.find("\n" + indent + "}", found.start())
        if end >= 0:
            yield found.group(2), text[found.start():end + len(indent) + 2]


def items(text, kind):
    for found in re.finditer(r"\b%s (\w+)[^{;]*([{;])" % kind, text):
        if found.group(2) == ";":
            yield found.group(1), None
        else:
            depth, at = 1, found.end()
            while depth:
                depth += {"{": 1, "}": -1}.get(text[at], 0)
                at += 1
            yield found.group(1), text[found.end():at - 1]


def parts(body):
    """The variants or fields of an item."""
    depth, part, found = 0, "", []
    for c in body:
        depth += (c in "({[") - (c in ")}]")
        if c == "," and not depth:
            found.append(part.strip())
            part = ""
        else:
            part += c
    return [p for p in found + [part.strip()] if p]


def own_kinds(file, text):
    for name, body in items(text, "enum"):
        variants = parts(body)
        loaded = [v for v in variants if "(" in v or "{" in v]
        if len(variants) == 2 and loaded:
            yield "enum %s: shaped like Option or Result" % name
    for name, body in items(text, "struct"):
        if body is None:
            count = sum(b.count("const ") for b in re.findall(r"impl %s \{(.*?)\n\}" % name, text, re.S))
            if count:
                yield "struct %s: %d numbers for kinds" % (name, count)
            continue
        fields = parts(body)
        types = [f.split(":", 1)[1].strip() for f in fields if ":" in f]
        if "bool" in types and len(types) > 1 and any(t[0].isupper() or t[0] == "[" for t in types):
            yield "struct %s: a flag beside a value" % name
        if any(re.search(r"\banswer: i64", f) for f in fields):
            yield "struct %s: a number for an answer" % name


def loops(file, text):
    for name, body in functions(text):
        for loop in re.findall(r"\bwhile [^\n{]*[<>][^\n{]*|\bfor \w+ in [^\n{]*\.\.[^\n{]*", body):
            yield "%s: %s" % (name, loop.strip())


def by_hand(file, text):
    for name, body in functions(text):
        if len(re.findall(r"=> (?:true|false),", body)) > 2:
            yield "%s: a match that answers a bool for each variant" % name
        if len(re.findall(r"\w+: self\.\w+,", body)) > 2:
            yield "%s: a record copied field by field" % name
        if re.search(r"if (\w+) [<>] (\w+) \{\s*(?:return )?(\1|\2);?\s*\}", body):
            yield "%s: the larger or smaller of two" % name
        if re.search(r"\bwide\(|\b0x10000 \*|\b16777216\b", body):
            yield "%s: a number from its bytes" % name
    for name in re.findall(r"fn (put_\w+|\w+_line|\w+_field)\(", text):
        yield "%s: printing" % name


def buffers(file, text):
    for name, body in functions(text):
        head = body.split("{", 1)[0]
        if re.search(r"\[u8\], (?:\w+: \w+, )?(?:at|have|from|n): usize", head.replace("\n", " ")):
            yield "%s: a buffer with a length beside it" % name
    for name, body in items(text, "struct"):
        if body:
            sizes = collections.Counter(re.findall(r"\[\w+; (\d+)\]", body))
            for size, count in sizes.items():
                if count > 1:
                    yield "struct %s: %d arrays of %s" % (name, count, size)


def switches(file, text):
    for name, body in functions(text):
        calls = len(re.findall(r"=> (?:\w+\()?\w+(?:(?:::|\.)\w+)*\(", body))
        arms = len(re.findall(r" => ", body))
        if arms > 1 and calls == arms:
            yield "%s: %d steps by a match" % (name, arms)
        if len(re.findall(r"== \w+::[A-Z_]+ \{\s*return \w+[.(]", body)) > 1:
            yield "%s: steps by a number" % name


def twins(root):
    """Functions that are the same but for names, types and numbers."""
    groups = collections.defaultdict(list)
    for file, text in sources(root):
        for name, body in functions(text):
            code = re.sub(r"^\s*(?:requires|ensures)\b.*\n(?:\s{8,}.*\n)*", "", body, flags=re.M)
            plain = re.sub(r"\b\w+\b", lambda m: m.group(0) if m.group(0) in
                           ("if", "let", "return", "while", "match", "self", "mut", "fn", "as", "for", "in", "else")
                           else "x", code)
            plain = re.sub(r",? ?\)", ")", re.sub(r"\s+", " ", plain)).replace("( ", "(")
            if plain.count("x") > 12:
                groups[plain].append("%s: %s" % (file, name))
    return [g for g in groups.values() if len(g) > 1]


def together(root):
    """Parameters that three functions or more have side by side, and clauses that three or more have."""
    pairs, clauses = collections.Counter(), collections.Counter()
    for file, text in sources(root):
        for name, body in functions(text):
            found = re.search(r"fn \w+(?:<[^(]*>)?\(([^)]*)\)", body, re.S)
            names = [p.strip() for p in found.group(1).split(",") if ":" in p] if found else []
            for a, b in zip(names, names[1:]):
                pairs[(file.split("/")[0], a, b)] += 1
            for clause in re.findall(r"(?:requires|ensures)[^{]*\{([^}]*)\}", body):
                clause = " ".join(clause.split())
                if "result ≡" not in clause:
                    clauses[(file.split("/")[0], clause)] += 1
    return (["%s: %s, %s (%d functions)" % (c, a, b, n) for (c, a, b), n in pairs.items() if n > 2],
            ["%s: %s (%d functions)" % (c, t, n) for (c, t), n in clauses.items() if n > 2])


def main():
    words = [w for w in sys.argv[1:] if w != "--list"]
    root = pathlib.Path(words[0] if words else ".")
    rows = [("1 own enums, flags, numbers", own_kinds), ("3 counted loops", loops),
            ("4 by hand", by_hand), ("6 buffers, parallel arrays", buffers), ("7 switches", switches)]
    table = {}
    for row, count in rows:
        table[row] = ["%s: %s" % (file, place) for file, text in sources(root) for place in count(file, text)]
    table["2 twins"] = [" = ".join(g) for g in twins(root)]
    parameters, clauses = together(root)
    table["5 parameters that travel together"] = parameters
    table["5 facts in three contracts or more"] = clauses
    for row in sorted(table):
        print("%-40s %d" % (row, len(table[row])))
        if "--list" in sys.argv:
            for place in table[row]:
                print("    " + place)


main()
