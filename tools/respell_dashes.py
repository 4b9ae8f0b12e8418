#!/usr/bin/env python3
"""Gives the repository's own definitions and lemmas with a dash in their names today's spelling: closed-again to closed_again.

usage: python3 tools/respell_dashes.py [--check]     at the top of the repository, once

It turns whole words alone: in specs/ and in the files of proofs/ the code, in src/ the clauses and the 'ghost use' items, in must-fail/ the old and the new text
of an edit of these, and everywhere a comment's or a page's code spans. Which words turn is read off the declarations of specs/ and of the lemma files of proofs/.
A name that Rattle makes (a goal's, a step's) and a name of std stay. A lemma that would have a definition's name gets _lem. --check writes nothing and
lists the table.
"""

import collections
import glob
import re
import sys

DECLARED = re.compile(r"\s*(?:abbrev |unfoldable |open )?(?:pub )?(?:abbrev |unfoldable )?(?:record |data )?([^\s(){}:]+)\s*(?:[({][^:]*:.*)?:\s")
WORD = re.compile(r"[^\s(){}\[\].;,:|@\"«»“”\x60]+")
# A comment or a text in quotes, which stays, but for code spans.
QUIET = re.compile(r'(--[^\n]*|//[^\n]*|"(?:[^"\\\n]|\\.)*")')
SPAN = re.compile(r"\x60[^\x60\n]+\x60")


def antt(folder):
    return sorted(glob.glob(f"crates/*/{folder}/**/*.antt", recursive=True))


def written():
    """The files of specs/ and the lemma files of proofs/: those that are not a function's."""
    made = ("Answers.antt", "Invariants.antt", "Proof.antt")
    return antt("specs") + [p for p in antt("proofs") if not p.endswith(made)]


def read(path):
    with open(path, encoding="utf-8") as f:
        return f.read()


def code(text):
    return QUIET.sub(" ", text)


def table():
    own, declared, foreign, made = set(), collections.defaultdict(set), set(), set()
    for path in written():
        for line in read(path).split("\n"):
            m = DECLARED.match(line)
            if m:
                declared[m[1]].add(path)
                if "-" in m[1].strip("→") and not re.match(r"[A-Z◌]", m[1]):
                    own.add(m[1])
    crates = {p.split("/")[1] for p in glob.glob("crates/*/specs")}
    for path in antt("specs") + antt("proofs") + sorted(glob.glob("crates/*/src/**/*.rt", recursive=True)):
        for where, names in re.findall(r"use ([^\s{;]+?)\.\{([^}]*)\}", read(path)):
            of = where.split(".")
            if of[0] != "Rattle" or of[1] not in crates:
                foreign |= {n.strip().split(" as ")[0] for n in names.split(",")}
    # what Rattle makes: the goals that are answered, and the first step behind c, l or w
    for path in sorted(set(antt("proofs")) - set(written())):
        text = code(read(path))
        made |= set(re.findall(r"goal\.([^\s(){},;]+)", text)) | set(re.findall(r"(?<![\w.])[clw]\.([^\s(){}.,;]+)", text))
    rows, kept = {}, {}
    for name in sorted(own):
        new = name.replace("-", "_")
        if name in foreign or name in made:
            kept[name] = "std's" if name in foreign else "made"
            continue
        rows[name] = new
    taken = set(declared) | foreign
    by_new = collections.Counter(rows.values())
    files = {p: set(WORD.findall(code(read(p)))) for p in antt("specs") + antt("proofs") + sorted(glob.glob("crates/*/src/**/*.rt", recursive=True))}
    for name, new in list(rows.items()):
        near = any(name in words and new in words for words in files.values())
        if new in taken or by_new[new] > 1 or near:
            rows[name] = new + "_lem"
            if rows[name] in taken:
                raise SystemExit(f"respell_dashes: {name} falls together with {rows[name]}")
    return rows, kept


def main():
    check = "--check" in sys.argv[1:]
    rows, kept = table()
    if check:
        for old, new in rows.items():
            print(f"{old}\t{new}")
        for old, why in kept.items():
            print(f"# {old} stays: {why}")
    word = lambda text: WORD.sub(lambda m: rows.get(m[0], m[0]), text)
    spans = lambda text: SPAN.sub(lambda m: word(m[0]), text)

    def of_code(text):
        parts = QUIET.split(text)
        return "".join(spans(p) if i % 2 else word(p) for i, p in enumerate(parts))

    def of_source(text):
        out, clause = [], False
        for line in text.split("\n"):
            if re.match(r"\s*ghost use ", line) or re.match(r"\s*(requires|ensures)\b", line):
                line = of_code(line)
            else:
                line = "".join(spans(p) if i % 2 else p for i, p in enumerate(QUIET.split(line)))
            out.append(line)
        return "\n".join(out)

    def of_edit(text):
        out, where = [], ""
        for line in text.split("\n"):
            if line.startswith("file: "):
                where = line[6:]
            if line.startswith(("old:", "new:")) and (where.endswith(".antt") or "result" in line or ".now" in line or ".old" in line):
                line = word(line)
            out.append(line)
        return "\n".join(out)

    jobs = [(p, of_code) for p in antt("specs") + antt("proofs")]
    jobs += [(p, of_source) for p in sorted(glob.glob("crates/*/src/**/*.rt", recursive=True))]
    jobs += [(p, of_edit) for p in sorted(glob.glob("crates/*/must-fail/*.edit"))]
    jobs += [(p, spans) for p in sorted(glob.glob("docs/**/*.md", recursive=True)) + ["README.md"] if not p.endswith("docs/PORT.md")]
    count = 0
    for path, turn in jobs:
        text = read(path)
        new = turn(text)
        if new != text:
            count += 1
            if not check:
                with open(path, "w", encoding="utf-8") as f:
                    f.write(new)
    print(f"respell_dashes: {len(rows)} names, {len(kept)} stay, {count} files", file=sys.stderr)


main()
