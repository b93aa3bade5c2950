#!/usr/bin/env python3
"""Spells this repository's own definitions and lemmas as today's Rattle does: words in snake case, types in camel case.

usage: tools/respell.py [FOLDER]      at the top of the repository, once, right after the kit's port.py

It reads what specs/ and proofs/ declare and respells each of these names in every .antt file, in the ghost lines and
clauses of .rt files, and in the must-fail edits. A name behind a dot is respelled only if it is a field of a record of
this repository's own; a name that a file takes from a library or that Rattle generates stays in that file. Functions,
types, fields and constants of src/ keep their names. It stops, with nothing written, where two names would fall together.
"""

import os
import re
import sys

NAME = r"[^\s(){}.;,@\"«»:`]+"
TOKEN = re.compile(rf"(?<![^\s(){{}};,@«»:.\"`]){NAME}(?![^\s(){{}}.;,@«»:\"`])")
MARKS = r"(?:(?:pattern|unfoldable|abbrev|pub|opaque) )*"
SIGNED = re.compile(rf"^ *{MARKS}({NAME}(?: {NAME})*)(?: \{{[^{{}}\n]*\}})* :(?: |$)")
NAMED = re.compile(rf"^ *{MARKS}(data|record|ruleset) ({NAME})")
MORE = re.compile(r"^\s+\S")
USE = re.compile(r"\buse ([^\s;{]+?)\.?(?:\{([^}]*)\})?(?: as (\S+))?\s*;?\s*$", re.M)
GENERATED = {"statement", "close", "spec", "tie", "goal", "rules", "c"}
# The library has an operator of this name that means a choice too; ours waits until it is unfolded.
CHOICE, NEW_CHOICE = "if◌then◌else◌", "if◌then◌otherwise◌"
# A definition of proofs/ whose plain name a constructor has.
OTHERWISE = {"foundIn": "search_found", "Waits-at": "WaitsAt"}
# A lemma of `exceptionate`, where the constructor of its name is never named.
APART = {"of-thread": "of_thread"}


def files(top, ends):
    for folder, dirs, names in os.walk(os.path.join(top, "crates")):
        dirs[:] = sorted(d for d in dirs if d != "out")
        for n in sorted(names):
            if n.endswith(ends):
                yield os.path.join(folder, n)


def read(path):
    with open(path, encoding="utf-8") as f:
        return f.read()


def snake(name):
    if name[:1].isupper() and not re.fullmatch(r"[A-Z0-9]+(?:[-_][A-Z0-9]+)*", name):
        return "".join(w[:1].upper() + w[1:] for w in name.split("-"))
    words = re.sub(r"(?<=[a-z0-9])[A-Z]", lambda m: "_" + m[0].lower(), name) if not name.isupper() else name
    return words.replace("-", "_")


def plain(name):
    """Whether the name is of letters alone, so that spelling it anew is a matter of words."""
    return re.fullmatch(r"[A-Za-zμ][A-Za-z0-9'₀₁₂_-]*", name) is not None


def declared(top):
    """The names that specs/ and proofs/ declare, which of them are fields of records, and which stand in specs/."""
    names, fields, stated = set(), set(), set()
    for path in files(top, ".antt"):
        known = set(names)
        inside = None
        for line in read(path).split("\n"):
            if m := NAMED.match(line):
                names.add(m[2])
                inside = m[1] if m[1] == "record" else None
                continue
            if not line.startswith(" "):
                inside = None if line.strip() else inside
            if m := SIGNED.match(line):
                names |= {*m[1].split()}
                if inside and line.startswith(" "):
                    fields |= {*m[1].split()}
        if "/specs/" in path:
            stated |= names - known
    return names, fields, stated


def table(top):
    """The new name of each name that changes, and of each such field. Where a lemma would have its function's name,
    the one that specs/ declares has the plain name and the lemma ends in `_lem`."""
    names, fields, stated = declared(top)
    turned, taken = {}, {}
    for old in sorted(names, key=lambda n: (n not in stated, n not in OTHERWISE, "-" in n, n)):
        if not plain(old) or old in GENERATED:
            new = old
        else:
            new = APART.get(old, OTHERWISE.get(old, snake(old)))
            new = new + "_lem" if new in taken and old not in APART else new
        if new in taken and old not in APART:
            sys.exit(f"respell: {taken[new]} and {old} would both be {new}")
        taken[new] = old
        if new != old:
            turned[old] = new
    return turned, {f: turned[f] for f in fields if f in turned}


def library(text):
    """The names that a file takes from a library, or from what Rattle generates."""
    out = set()
    for m in USE.finditer(text):
        own = re.match(r"Rattle\.(\w+)\.(specs|proofs)\.", m[1])
        generated = re.search(r"\.(Goals|Given|Tie|Statement|Lts|TheVariants|declared)(\.|$)", m[1])
        if (not own or m[1].startswith("Rattle.std") or generated) and m[2]:
            out |= {w.strip().split(" as ")[-1] for w in m[2].split(",")}
    return out


def respell(path, text, turned, fields):
    stays = library(text)
    # A lemma's name does not stand in code, and what a walk over code names behind a dot is generated.
    if path.endswith(".rt"):
        turned = {o: n for o, n in turned.items() if "-" in o or o != o.lower()}
    if path.endswith("Proof.antt"):
        fields = {}

    def one(m):
        word, at = m[0], m.start()
        if at and text[at - 1] == ".":
            return fields.get(word, word)
        return word if word in stays else turned.get(word, word)

    return TOKEN.sub(one, text)


def choices(path, text):
    """The choice between two values under its new name. In a text `else` stands for nothing but this operator."""
    if path.endswith(".rt"):
        return text.replace(CHOICE, NEW_CHOICE)
    text = text.replace(CHOICE, NEW_CHOICE)
    if "file: src/" in text:
        return text

    def line(of):
        whole = of[0]
        is_term = not whole.lstrip().startswith("--") or " then " in whole
        is_said = path.endswith(".edit") and not re.match(r"(old|new): ", whole)
        return whole if is_said or not is_term else re.sub(r"(?<![^\s(])else(?![^\s)])", "otherwise", whole)

    return re.sub(r"(?m)^.*$", line, text)


def comments(text, names):
    """A name between backticks of a comment, which port.py passes over: as it is declared now."""

    def word(m):
        return snake(m[0]) if plain(m[0]) and m[0] not in names and snake(m[0]) in names else m[0]

    def quoted(m):
        return re.sub(r"[^\s`(),.]+", word, m[0])

    return re.sub(r"(?m)^ *(?:--|//).*$", lambda m: re.sub(r"`[^`]*`", quoted, m[0]), text)


def main():
    top = sys.argv[1] if len(sys.argv) > 1 else "."
    turned, fields = table(top)
    names = {turned.get(n, n) for n in declared(top)[0]}
    count = 0
    for path in files(top, (".antt", ".rt", ".edit")):
        old = read(path)
        new = comments(choices(path, respell(path, old, turned, fields)), names)
        if new != old:
            count += 1
            with open(path, "w", encoding="utf-8") as f:
                f.write(new)
    print(f"respell: {len(turned)} names in {count} files")


if __name__ == "__main__":
    main()
