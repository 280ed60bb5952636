#!/usr/bin/env python3
"""Spells the definitions and lemmas of this repository as today's Rattle spells its own: in snake case, types apart.

usage: tools/respell.py        at the top of the repository, once, behind the kit's port.py

A name turns that a file of specs/ or a lemma file of proofs/ declares in camel case or with dashes: `firstOf` to `first_of`,
`first-found` to `first_found`. Names of functions of src/, of the library and of what Rattle makes of a function's code stay.
Where a lemma would get the name of a definition, or of another lemma, the lemma gets `_lem` behind it, as the library's do.
It goes by whole words, in the code of .antt files, the clauses and imports of .rt files, the texts of must-fail edits and the code
spans of the pages; and prints each name that it turned.
"""

import collections
import os
import re
import sys

# What stands between words of antt, of clauses and of code spans.
WORD = re.compile(r"[^\s(){}.;,:!?&*/=+<>|@\"`\[\]]+")
DECLARED = re.compile(
    r"^ *(?:(?:pub|abbrev|unfoldable|opaque|record|data) )*([^\s(){}.;,@\":]+)(?: \{[^{}\n]*\}| \([^()\n]*\))* :(?=\s|$)", re.M
)
USE = re.compile(r"\buse ([^\s;{]+?)\.?(?:\{([^}]*)\})?(?: as (\S+))?[\s;]")
FIXED = re.compile(r"(invariant|decreases|returns|loop\d*|needs?|overflow)(-.*)?$")


def files(end, *inside):
    for folder, dirs, names in os.walk("crates"):
        dirs[:] = sorted(d for d in dirs if d != "out")
        for name in sorted(names):
            path = os.path.join(folder, name)
            if name.endswith(end) and (not inside or path.split(os.sep)[2] in inside):
                yield path


def read(path):
    with open(path, encoding="utf-8", newline="") as file:
        return file.read()


def snake(name):
    words = re.sub(r"(?<=[a-z0-9])[A-Z]", lambda it: "_" + it[0].lower(), name)
    words = words.replace("-", "_")
    return words[0].lower() + words[1:] if "-" in name else words


def own(module, crates):
    steps = module.split(".")
    return steps[0] == "Rattle" and len(steps) > 1 and steps[1] in crates


def of_function(path):
    return os.path.basename(path) in ("Proof.antt", "Answers.antt", "Invariants.antt")


def names():
    """What the specs and lemma files declare, and what any file takes from the library."""
    crates = set(os.listdir("crates"))
    lemmas, specs, library = set(), set(), set()
    for path in files(".antt"):
        text = re.sub(r"--[^\n]*", "", read(path))
        if not of_function(path):
            here = specs if path.split(os.sep)[2] == "specs" else lemmas
            here.update(it[1] for it in DECLARED.finditer(text))
        for it in USE.finditer(text):
            if not own(it[1], crates):
                library.update(word.split(" as ")[0].strip() for word in (it[2] or "").split(","))
    for path in files(".rt"):
        for it in USE.finditer(read(path)):
            if it[1].startswith("Rattle.") and not own(it[1], crates):
                library.update(word.split(" as ")[0].strip() for word in (it[2] or "").split(","))
    return lemmas, specs, library


def table():
    lemmas, specs, library = names()
    met = collections.defaultdict(set)
    for name in lemmas | specs:
        if name not in library and not FIXED.match(name) and re.match(r"[A-Za-z]", name):
            met[name if name[0].isupper() and "-" not in name else snake(name)].add(name)
    turned = {}
    for new, olds in met.items():
        # What specs declare first, then what was in camel case.
        ranked = sorted(olds, key=lambda it: (it not in specs, "-" in it or "_" in it, it))
        if new in library:
            ranked.insert(0, None)
        for old in ranked[:1]:
            if old not in (None, new):
                turned[old] = new
        for old in ranked[1:]:
            lemma = new + "_lem"
            if lemma in library or lemma in met or len(ranked) > 2:
                sys.exit(f"respell: {old} finds no name")
            turned[old] = lemma
    return turned


def words(text, turned, made):
    """Whole words of code. Behind `tie.` stand names that Rattle made; in a proof of a function some others are too."""

    def word(it):
        old = it[0]
        fixed = it.string[: it.start()].endswith("tie.") or (made and FIXED.match(old))
        return old if fixed else turned.get(old, old)

    return WORD.sub(word, text)


def spans(text, turned):
    """The code spans of a comment or a page, and in them whole words."""
    return re.sub(r"`[^`\n]+`", lambda it: words(it[0], turned, False), text)


def code(text, turned, comment, made):
    """Code with its comments; quoted text stays."""
    out, at = [], 0
    for it in re.finditer(rf"{comment}[^\n]*|\"(?:[^\"\\\n]|\\.)*\"", text):
        out.append(words(text[at : it.start()], turned, made))
        out.append(it[0] if it[0].startswith('"') else spans(it[0], turned))
        at = it.end()
    return "".join(out) + words(text[at:], turned, made)


def edit(text, turned):
    """The texts of a must-fail edit, which are code."""
    out, comment, made = [], "--", False
    for line in text.splitlines(keepends=True):
        if line.startswith("file:"):
            comment = "//" if line.strip().endswith(".rt") else "--"
            made = of_function(line.strip())
        elif line.startswith(("old:", "new:")):
            line = line[:4] + code(line[4:], turned, comment, made)
        else:
            line = spans(line, turned)
        out.append(line)
    return "".join(out)


def write(path, old, new):
    if new != old:
        with open(path, "w", encoding="utf-8", newline="") as file:
            file.write(new)


def main():
    turned = table()
    for path in list(files(".antt")):
        old = read(path)
        write(path, old, code(old, turned, "--", of_function(path)))
    for path in list(files(".rt")):
        old = read(path)
        write(path, old, code(old, turned, "//", False))
    for path in list(files(".edit")):
        old = read(path)
        write(path, old, edit(old, turned))
    pages = ["README.md"] + [os.path.join(at, it) for at in ("docs", "docs/changes") for it in sorted(os.listdir(at)) if it.endswith(".md")]
    for path in pages:
        old = read(path)
        write(path, old, spans(old, turned))
    for old, new in sorted(turned.items()):
        print(old, new)


main()
