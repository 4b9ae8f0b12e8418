#!/usr/bin/env python3
"""Gives the repository's own definitions and lemmas today's spelling: words in snake case, as sheetLength to sheet_length.

usage: python3 tools/respell.py [--check]     at the top of the repository, once, behind port.py

It turns whole words alone, in crates/ (specs, proofs, clauses and comments of src, must-fail edits), docs/ and README.md. Which words turn is read off the
declarations of specs/ and proofs/: each name that begins with a small letter and has a capital behind a small letter or a digit. A dash or an arrow in
a lemma's name stays. A lemma of the same module or file that would have its definition's new name gets _lem first. --check writes nothing and lists the table.
"""

import collections
import glob
import re
import sys

DECLARED = re.compile(r"\s*(?:abbrev |unfoldable |open )?(?:pub )?(?:abbrev |unfoldable )?(?:record |data )?([^\s(){}:]+)\s*(?:[({][^:]*:.*)?:\s")
WORD = re.compile(r"[^\s(){}\[\].;,:|@\"«»“”‘’\x60/*]+")
# Lemmas that port.py gave the name which a definition gets here, and the files in which they are named.
FALLEN = {
    "set_if": ["laws/specs/Exactly.antt"],
    "sets_of": ["laws/specs/Joining.antt", "laws/specs/OwnOffers.antt", "examine/proofs/SetsBy.antt", "examine/proofs/SheetBy.antt"],
    "no_record": ["judging/proofs/AppliedLaws.antt", "judging/proofs/effect/applied/Proof.antt"],
    "key_in": ["registers/proofs/RegisterBy.antt", "registers/proofs/register/row_key/Proof.antt"],
    "too_many": ["open_sets/proofs/OpenLaws.antt", "open_sets/proofs/examining/is_open_set/Proof.antt", "reads/proofs/StepLaws.antt"],
}


def snake(name):
    return re.sub(r"(?<=[a-z0-9])([A-Z])", lambda m: "_" + m.group(1).lower(), name)


def turned(name):
    return "-".join(snake(p) if re.match(r"→?[a-z]", p) else p for p in name.split("-"))


def antt():
    return sorted(glob.glob("crates/*/specs/**/*.antt", recursive=True) + glob.glob("crates/*/proofs/**/*.antt", recursive=True))


def table():
    names = set()
    for path in antt():
        for line in open(path, encoding="utf-8"):
            m = DECLARED.match(line)
            if m and re.match(r"→?[a-z]", m.group(1)):
                names.add(m.group(1))
    return names, {n: turned(n) for n in sorted(names) if turned(n) != n}


def main():
    check = "--check" in sys.argv[1:]
    names, rows = table()
    by_new = collections.Counter(rows.values())
    for old, new in rows.items():
        if by_new[new] > 1:
            raise SystemExit(f"respell: {old} falls together with another name as {new}")
        if new in names and new not in FALLEN and new != "in_order":
            raise SystemExit(f"respell: {old} falls together with {new}")
        if check:
            print(f"{old}\t{new}")
    files = antt() + sorted(glob.glob("crates/*/src/**/*.rt", recursive=True) + glob.glob("crates/*/must-fail/*.edit") + glob.glob("docs/**/*.md", recursive=True)) + ["README.md"]
    files = [f for f in files if not f.endswith("docs/PORT.md")]
    count = 0
    for path in files:
        with open(path, encoding="utf-8") as f:
            text = f.read()
        new = text
        for word, where in FALLEN.items():
            if any(path == "crates/" + w for w in where):
                new = WORD.sub(lambda m, word=word: word + "_lem" if m[0] == word else m[0], new)
        new = WORD.sub(lambda m: rows.get(m[0], m[0]), new)
        # in prose a name may stand before a quote's mark
        new = re.sub(r"(?<![\w'-])([a-z]\w*)(?=')", lambda m: rows.get(m[1], m[1]), new)
        if new != text:
            count += 1
            if not check:
                with open(path, "w", encoding="utf-8") as f:
                    f.write(new)
    print(f"respell: {len(rows)} names, {count} files", file=sys.stderr)


main()
