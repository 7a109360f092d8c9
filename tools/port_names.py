#!/usr/bin/env python3
"""Brings the repository's own definitions and lemmas to the spelling of today's library: words of a name in snake case.

Run once, at the top of the repository, after the toolchain's script. It respells names that begin with a small letter and
hold a capital, in definitions, lemmas, fields and binders of specs/ and proofs/, in the clauses of src/ and in the
must-fail edits: keepIf becomes keep_if. Names of src/, types, strings and comments of code stay. It stops, and writes
nothing, where two names would fall together.
"""
import glob
import re
import sys

ALONE = {
    # named as tactics are, or as words of the library that their crate uses
    "first_of": "first_passing",
    # constructors of one type, which stand together on a line
    "isTRUE": "true_end",
    "isFALSE": "false_end",
    "outOfRoom": "out_of_room",
    "entryBad": "entry_bad",
    "notPermitted": "not_permitted",
    "noRoom": "no_room",
    "ofVariables": "of_variables",
    "ofClauses": "of_clauses",
    "ofLiterals": "of_literals",
    "ownEntry": "own_entry",
    "nextEntry": "next_entry",
    "notLighter": "not_lighter",
    "tooHeavy": "too_heavy",
    "isFormula": "is_formula",
    "isBytes": "is_bytes",
}
# lemmas whose names would be those of definitions: they keep the dash that they had
DASHED = ["answer_back", "as_written", "free_of", "given_back", "is_true", "no_kind", "one_more", "place_at", "right_of"]
WORD = re.compile(r"[^\s(){}.,;:\[\]|⌜⌝=\"`⟦⟧]+")
CAMEL = re.compile(r"^[a-z][a-z0-9_]*[A-Z]")
DEFINED = re.compile(r"^\s*(?:abbrev |unfoldable |pub |record |data )*([^\s:(){}.,\[\]]+)\s*(?:[({].*[)}])?\s*:")


def snake(word):
    return re.sub(r"(?<=[a-z0-9])([A-Z])", lambda m: "_" + m.group(1).lower(), re.sub(r"(?<=[a-z])([A-Z])(?=[A-Z]|$)", lambda m: "_" + m.group(1).lower(), word))


def files(kind):
    return sorted(glob.glob(f"crates/*/{kind}", recursive=True))


ANTT = [p for p in files("specs/**/*.antt") + files("proofs/**/*.antt") if "/out/" not in p]
RUST = files("src/*.rt")
EDITS = files("must-fail/*.edit")


def own_names():
    names = set()
    for p in ANTT:
        for line in open(p, encoding="utf-8"):
            m = DEFINED.match(line)
            if m:
                names.add(m.group(1))
    return names


def turned(names):
    parts = {}
    for n in names:
        for part in n.split("-"):
            if CAMEL.match(part):
                parts[part] = snake(part)
    parts.update(ALONE)
    return parts


def together(names, parts):
    new, bad = {}, []
    for n in sorted(names):
        m = "-".join(parts.get(p, p) for p in n.split("-"))
        if m in new and new[m] != n:
            bad.append(f"{new[m]} and {n} both become {m}")
        new[m] = n
    return bad


def turn_text(text, parts):
    def word(m):
        return "-".join(parts.get(p, p) for p in m.group(0).split("-"))

    return WORD.sub(word, text)


def turn_rust(text, parts):
    # code in snake case has none of these words; strings and comments stay
    out = []
    for piece in re.split(r'(b?"(?:[^"\\\n]|\\.)*"|//[^\n]*)', text):
        out.append(piece if piece.startswith(('"', 'b"', "//")) else turn_text(piece, parts))
    return "".join(out)


def main():
    dashed = {n: n.replace("_", "-") for n in DASHED}
    for p in ANTT:
        old = open(p, encoding="utf-8").read()
        new = WORD.sub(lambda m: dashed.get(m.group(0), m.group(0)), old)
        if new != old:
            open(p, "w", encoding="utf-8").write(new)
    names = own_names()
    parts = turned(names)
    bad = together(names, parts)
    if bad:
        print("\n".join(bad))
        return 1
    n = 0
    for p in ANTT + EDITS + RUST:
        old = open(p, encoding="utf-8").read()
        new = turn_rust(old, parts) if p.endswith(".rt") else turn_text(old, parts)
        if new != old:
            open(p, "w", encoding="utf-8").write(new)
            n += 1
    print(f"{len(parts)} words respelled, {n} files changed")
    return 0


if __name__ == "__main__":
    sys.exit(main())
