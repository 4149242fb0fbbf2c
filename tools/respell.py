#!/usr/bin/env python3
"""Brings this repository's own definitions and lemmas to Rattle's spelling: types in camel case, all else in snake case.

usage: python3 tools/respell.py [--list]       at the top of the repository, once, after the toolchain's own port.py

It goes by text. The names are those that .antt files of specs/ and proofs/ declare (definitions, lemmas, fields, constructors),
and those that imports give, that have a dash, or are types with an underscore. It changes them in .antt files, in clauses of .rt files and in must-fail edits.
Names that Rattle makes for goals, names that a file imports from a library, and names of Rust items keep their spelling.
It stops, before it writes anything, where two names would fall together in one file.
"""

import os
import re
import sys

TOKEN = re.compile(r"(?<![\w'\u25cc-])[A-Za-z_\u03b1-\u03c9][\w'-]*")
MARKS = r"(?:(?:pattern|unfoldable|abbrev|pub)\s+)*"
SIGNATURE = re.compile(r"^\s*" + MARKS + r"([A-Za-z_][\w'-]*) (?:\{[^}]*\} )?:(?!:)(?P<rest>.*)$")
FAMILY = re.compile(r"^\s*" + MARKS + r"(?:record|data) ([A-Za-z_][\w'-]*)")
IMPORT = re.compile(r"^\s*(?:pub )?(?:ghost )?use ([^{;]*?)\.?\{([^}]*)\}", re.M)
# Names that are words of the language now, or that need more than another style: `quiet` is a type, and `Quiet` is another.
TAKEN = {"first_of": "first_failing", "ok-okOr": "ok_ok_or", "quiet": "IsQuiet", "digitValue": "value_of_digit"}
ALIAS = re.compile(r" as ([a-z]\w*-[\w-]*)(?=[,}])")
FUNCTION = re.compile(r"\bfn (\w+)")


def files(root, *suffixes):
    for folder, dirs, names in os.walk(os.path.join(root, "crates")):
        dirs[:] = sorted(d for d in dirs if d != "out")
        for n in sorted(names):
            if n.endswith(suffixes):
                yield os.path.join(folder, n)


def read(path):
    with open(path, encoding="utf-8") as f:
        return f.read()


def declared(text):
    """The names that an .antt file declares, and whether each is a type."""
    for line in text.splitlines():
        family = FAMILY.match(line)
        if family:
            yield family[1], True
            continue
        signature = SIGNATURE.match(line)
        if signature and not signature["rest"].strip().startswith("goal."):
            yield signature[1], bool(re.search(r"(?:^|→ |: )Type \d$", ":" + signature["rest"].rstrip()))


def respelled(name, is_type):
    if is_type and name[0].isupper():
        return "".join(w[:1].upper() + w[1:] for w in re.split(r"[-_]", name))
    return name.replace("-", "_")


def imported(text):
    """The names that a file takes from a library, which is no crate of this repository."""
    found = set()
    for module, names in IMPORT.findall(text):
        if re.match(r"(Rattle\.std\b|borrow\b|lib\b|mathlib\b|native\b|Prim\b|seplogic\b)", module):
            for n in names.split(","):
                found.update(p.strip() for p in n.split(" as "))
    return found


def changed(text, renamed, keep, made):
    def one(m):
        word = m[0]
        if word in keep or word not in renamed:
            return word
        before = text[: m.start()]
        if made and re.search(r"(?:^|[^\w'.-])(?:c|l|goal)\.$", before[-8:]):
            return word
        return renamed[word]

    return TOKEN.sub(one, text)


CLAUSE = re.compile(r"ghost use [^;]*;|(?<![\w])(?:requires|ensures)\b[^{\n]*\{[^\n]*|\bghost \w+[^\n]*|^\s*//[^\n]*", re.M)


def in_source(text, renamed, keep):
    """Clauses, ghost items and comments alone: the code of a function keeps its names, which have no dash anyway."""
    return CLAUSE.sub(lambda m: changed(m[0], renamed, keep, False), text)


def main(argv):
    root = "."
    kinds = {}
    for p in files(root, ".antt", ".rt"):
        text = read(p)
        for name, is_type in declared(text) if p.endswith(".antt") else ():
            kinds[name] = kinds.get(name, False) or is_type
        for name in ALIAS.findall(text):
            kinds.setdefault(name, False)
    renamed = {n: respelled(n, t) for n, t in kinds.items()}
    renamed = {n: r for n, r in renamed.items() if n != r} | TAKEN
    functions = {n for p in files(root, ".rt") for n in FUNCTION.findall(read(p))}
    if argv == ["--list"]:
        for n in sorted(renamed):
            print(f"{n} -> {renamed[n]}")
        return 0
    writes, clashes = {}, []
    for p in files(root, ".antt", ".rt", ".edit"):
        text = read(p)
        keep = imported(text) - set(TAKEN)
        made = "/proofs/" in p and p.endswith(("Answers.antt", "Invariants.antt"))
        turn = in_source(text, renamed, keep) if p.endswith(".rt") else changed(text, renamed, keep, made)
        words = set(TOKEN.findall(text))
        for n in sorted(words):
            # A definition may have the name of the function whose contract it states.
            if n in renamed and n not in keep and renamed[n] in words and (renamed[n] not in functions or renamed[n] in kinds):
                clashes.append(f"{p}: {n} and {renamed[n]}")
        if turn != text:
            writes[p] = turn
    if clashes:
        print("respell: names would fall together:\n" + "\n".join(clashes))
        return 1
    for p, t in writes.items():
        with open(p, "w", encoding="utf-8") as f:
            f.write(t)
    print(f"respell: {len(renamed)} names, {len(writes)} files")
    return 0


if __name__ == "__main__":
    raise SystemExit(main(sys.argv[1:]))
