#!/usr/bin/env python3
"""Brings the repository's own definitions, lemmas and fields to today's spelling, once, behind the kit's own scripts.

usage: tools/spelling.py          at the top of the repository, in the tree that those scripts turned

Words are in snake case: a capital inside a name becomes '_' and its small letter, as headerWord header_word; a dash becomes '_', as parent-skip
parent_skip. A dash stays where it joins two names, of definitions in specs/ or of the library, as length-encode, and behind a type, as All-append.
A lemma that would have a definition's name gets _lem (CLASH, below). Functions of src/, types, modules, exported names, strings, inputs and outputs
keep their names; a definition may have the name of the function that computes it, as the kit's own do. The script stops where a new name would fall
together with any other word of the repository.
"""
import glob
import os
import re
import sys

NAME = r'[^\s(){}.;,@"«»:]+'
DECLARED = re.compile(r'^(\s*)(?:(?:pub|unfoldable|abbrev|opaque|private|inline) )*(' + NAME + r')(?: \{[^{}\n]*\}| \([^()\n]*\))* :( |$)')
WORD = re.compile(r'(?<![^\s(){}.;,@"«»:`\'*|→])' + r"[A-Za-zα-ωΑ-Ω_][^\s(){}.;,@\"«»:`|]*")
LIBRARY = set("length take drop append map sum reverse get_or set ltb leb eqb min max cond replicate add sub mul div mod".split())
# lemmas that would have a definition's name
CLASH = {
    n: n.replace("-", "_") + "_lem"
    for n in (
        "code-of fault-or first-of hit-of hit-sheet marks-of seat-leaf seated-by shapes-of sheet-of starts-of stray-or"
        " all_right held_in length_found met_by size_in taken_as"
    ).split()
}
# heads behind which a name is one that the check makes
MADE = ("tie", "lts", "reads", "goal")


def files(*patterns):
    return sorted(f for p in patterns for f in glob.glob(p, recursive=True) if "/out/" not in f)


def listed(f):
    """A crate's files count for a clash where crates.txt lists it."""
    return re.search(r"(?m)^" + f.split("/")[1] + ":", open("crates.txt", encoding="utf-8").read())


def snake(part):
    if not re.match(r"[a-z]", part):
        return part
    return re.sub(r"([A-Z]+)", lambda m: "_" + m.group(1).lower(), part)


def turned(name, names):
    parts = name.split("-")
    out = snake(parts[0])
    for before, part in zip(parts, parts[1:]):
        part = snake(part)
        before = snake(before)
        joins = re.match(r"[A-Z]", before) or re.match(r"[A-Z]", part) or before in names and part in names
        out += ("-" if joins else "_") + part
    return out


def declared():
    found, functions = {}, set()
    for f in files("crates/*/specs/*.antt", "crates/*/proofs/*.antt"):
        for line in open(f, encoding="utf-8"):
            m = DECLARED.match(line)
            if not m or m.group(2) in ("record", "data", "module", "use", "let", "in", "where"):
                continue
            found.setdefault(m.group(2), []).append(f)
            if "/specs/" in f and not m.group(1):
                functions.add(snake(m.group(2)) if "-" not in m.group(2) else "")
    return found, functions


def table():
    found, functions = declared()
    names = functions | LIBRARY
    rows = {}
    for n in found:
        if not re.match(r"[a-z]", n):
            continue
        bare = n.rstrip("'")
        new = CLASH.get(n) or turned(bare, names) + n[len(bare):]
        if new != n:
            rows[n] = new
    return rows


def texts():
    return files("crates/*/specs/**/*.antt", "crates/*/proofs/**/*.antt", "crates/*/src/**/*.rt", "crates/*/must-fail/*.edit")


def tokens(text):
    return re.finditer(r'[^\s(){}.;,@"«»:`|]+', text)


def clashes(rows):
    there = {}
    for f in filter(listed, texts()):
        for m in tokens(open(f, encoding="utf-8").read()):
            there.setdefault(m.group(0), set()).add(f)
    back, bad = {}, []
    functions = set(re.findall(r"\bfn (\w+)", "\n".join(open(f, encoding="utf-8").read() for f in files("crates/*/src/**/*.rt"))))
    for old, new in rows.items():
        if new in back or new in there and new not in rows and new not in functions:
            bad.append((old, new, back.get(new), sorted(there.get(new, ()))[:3]))
        back[new] = old
    return bad


def turn(text, rows):
    def one(m):
        word = m.group(0)
        if word not in rows:
            return word
        before = text[:m.start()]
        head = re.search(r"(\w[\w-]*)\.$", before[-40:])
        if head and head.group(1) in MADE:
            return word
        return rows[word]
    return re.sub(r'[^\s(){}.;,@"«»:`|]+', one, text)


def prose(text, rows):
    """Code spans of a page, and words with a capital inside, which no other text has."""
    text = re.sub(r"`[^`\n]+`", lambda m: turn(m.group(0), rows), text)
    camel = {k: v for k, v in rows.items() if re.match(r"[a-z]+[A-Z]", k)}
    return turn(text, camel)


def main():
    rows = table()
    bad = clashes(rows)
    if "--show" in sys.argv:
        for old, new in rows.items():
            print(old, new)
    if bad:
        for old, new, other, where in bad:
            print(f"spelling: {old} would be {new}, which is", f"{other} too" if other else "in " + ", ".join(where), file=sys.stderr)
        sys.exit(1)
    if "--show" in sys.argv:
        return
    labels = {os.path.basename(f)[:-5] for f in files("crates/*/must-fail/*.edit")}
    kept = {k: v for k, v in rows.items() if k not in labels}
    for f in texts() + files("README.md", "docs/**/*.md", "tests/README.md", "samples/README.md"):
        before = open(f, encoding="utf-8").read()
        after = prose(before, kept) if f.endswith(".md") else turn(before, rows)
        if after != before:
            open(f, "w", encoding="utf-8").write(after)


if __name__ == "__main__":
    main()
