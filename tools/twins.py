"""Prints the groups of functions in crates/*/src whose code is the same once names, types, strings and numbers are blanked.

usage: python3 tools/twins.py [LINES]    a body counts from so many lines on (4)
"""
import collections
import glob
import re
import sys

HEAD = re.compile(r"^ *(?:#\[.*\]\n *)*(?:pub )?(?:extern \"C\" )?fn (\w+)", re.M)
KEPT = set("let mut if else while for in match return break continue loop as true false".split())


def body(text, start):
    at = text.find("\n{" if text[start - 1 : start] in ("", "\n") else "{\n", start)
    deep, i = 0, text.find("{\n", at if at >= 0 else start)
    for k in range(i, len(text)):
        deep += (text[k] == "{") - (text[k] == "}")
        if not deep:
            return text[i : k + 1]
    return ""


def blanked(code):
    code = re.sub(r"//.*", "", code)
    code = re.sub(r'b?"[^"]*"', "S", code)
    return re.sub(r"[A-Za-z_]\w*(?:::\w+)*|\d[\d_]*", lambda m: m[0] if m[0] in KEPT else "x", re.sub(r"\s+", " ", code))


least = int(sys.argv[1]) if len(sys.argv) > 1 else 4
groups = collections.defaultdict(list)
for file in sorted(glob.glob("crates/*/src/*.rt")):
    text = open(file, encoding="utf-8").read()
    code = "\n".join("" if re.match(r" *(requires|ensures|ghost) ", line) else line for line in text.split("\n"))
    for m in HEAD.finditer(code):
        made = body(code, m.end())
        if made.count("\n") >= least:
            groups[blanked(made)].append(f"{file.split('/')[1]}::{m[1]}")
twins = sorted(it for it in groups.values() if len(it) > 1)
for it in twins:
    print(" ".join(it))
print(len(twins), "groups,", sum(map(len, twins)), "functions")
