#!/usr/bin/env python3
"""Brings the repository's own definitions and lemmas to today's spelling: words joined by `_`, statements and other types in camel case.

usage: python3 tools/snake_names.py [--list]     at the top of the repository, once, after port.py

What is renamed: a name with a dash that a file of specs/ defines, or a lemma file of proofs/. It is renamed wherever it stands as a whole
word: in definitions, contracts, proofs, comments, edits and pages. Names of the library, of goals and of what stands behind `tie.` or
`goal.` stay. With --list it only prints what would be renamed and what would fall together.
"""
import collections
import glob
import re
import sys

# Names whose first word is a letter of a formula: no statement, but a lemma on what the letter stands for.
LETTERS = re.compile(r"[A-Z]-")
PART = r"[^\s(){}\[\];,.:`|\"=λ→⊢⟨⟩*]"
DEFINED = re.compile(
    r"^[ \t]*(?:(?:pub|abbrev|unfoldable|record|data|mutual)[ \t]+)*(" + PART + r"+-" + PART + r"*)[ \t]*(?:\{[^}\n]*\}[ \t]*|\([^)\n]*\)[ \t]*)*:(?=\s|$)",
    re.M,
)
WORD = re.compile(r"(?<![\w'′-])(?:tie\.|goal\.|goals\.)?[A-Za-z][\w'′≈≢₀-₉-]*")


def new_name(old):
    if old[0].isupper() and not LETTERS.match(old):
        return "".join(w[0].upper() + w[1:] for w in old.split("-"))
    return old.replace("-", "_")


def definition_files():
    for f in sorted(glob.glob("crates/*/specs/**/*.antt", recursive=True) + glob.glob("crates/*/proofs/**/*.antt", recursive=True)):
        if "/out/" not in f and not re.search(r"/proofs/.*/(Proof|Invariants|Answers)\.antt$", f):
            yield f


def own_names():
    where = collections.defaultdict(set)
    for f in definition_files():
        for m in DEFINED.finditer(open(f, encoding="utf-8").read()):
            where[m.group(1)].add(f)
    return where


def imported_elsewhere(text, own_crates):
    """The names that a file imports from other than the repository's crates."""
    found = set()
    for m in re.finditer(r"use ([\w.·'-]+)\.\{([^}]*)\}", text):
        crate = m.group(1).split(".")[1] if m.group(1).startswith("Rattle.") else ""
        if crate not in own_crates:
            found |= {w.strip() for w in m.group(2).split(",")}
    return found


def turn(text, names, kept):
    def put(m):
        w = m.group(0)
        return names[w] if w in names and w not in kept else w

    return WORD.sub(put, text)


def main():
    own_crates = {line.split(":")[0].split()[0] for line in open("crates.txt") if line.strip() and not line.startswith("#")}
    where = own_names()
    names = {n: new_name(n) for n in where}
    by_new = collections.defaultdict(set)
    for n, new in names.items():
        by_new[new].add(n)
    plain = set()
    for f in definition_files():
        plain |= set(re.findall(r"^[ \t]*(?:(?:pub|abbrev|unfoldable|record|data)[ \t]+)*([A-Za-z][\w']*)[ \t]*(?:\{[^}\n]*\}[ \t]*|\([^)\n]*\)[ \t]*)*:(?=\s|$)", open(f, encoding="utf-8").read(), re.M))
    for new, olds in sorted(by_new.items()):
        if len(olds) > 1 or new in plain:
            print("falls together:", new, sorted(olds), "and itself" if new in plain else "")
    # Pages and edits have names still as they were before port.py: there each name that has `_` now is looked for with dashes too.
    older = {w.replace("_", "-"): w for w in plain | set(names.values()) if "_" in w}
    files = sorted(set(glob.glob("crates/*/src/**/*.rt", recursive=True) + glob.glob("crates/*/specs/**/*.antt", recursive=True)
                       + glob.glob("crates/*/proofs/**/*.antt", recursive=True) + glob.glob("crates/*/must-fail/*.edit")
                       + ["README.md", "compare/README.md"] + glob.glob("docs/**/*.md", recursive=True)))
    for f in files:
        if "/out/" in f or f.endswith("PORT.md"):
            continue
        text = open(f, encoding="utf-8").read()
        kept = imported_elsewhere(text, own_crates) & set(names)
        if kept:
            print("the library's here:", f, sorted(kept))
        new = turn(text, names if f.endswith((".rt", ".antt")) else older | names, kept)
        if new != text and "--list" not in sys.argv:
            open(f, "w", encoding="utf-8").write(new)
    if "--list" in sys.argv:
        for n in sorted(names):
            print(n, names[n])


main()
