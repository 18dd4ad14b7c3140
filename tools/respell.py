#!/usr/bin/env python3
"""Brings the names of this repository's definitions and lemmas to today's spelling, after port.py: words in snake case, facts and
records in camel case. Names of src/, of exported functions, strings, inputs and outputs stay. Usage, at the top: tools/respell.py [--list]

A name is one that a file of specs/ or proofs/ declares and that has a dash. A name that Rattle makes for a goal is none of these.
Where a name would fall together with another one, OTHER says what it is called."""

import os
import re
import sys

NAME = r"[^\s(){}\[\].,;:=|λ⌜⌝«»\"]+"
DECLARED = re.compile(
    r"^[ \t]*(?:(?:abbrev|unfoldable|pub|private)[ \t]+)*(?P<kind>(?:data|record)[ \t]+)?(?P<name>" + NAME + r")"
    r"(?P<params>(?:[ \t]*[({][^\n]*?[)}])*)[ \t]*:[ \t](?P<type>[^\n]*)$",
    re.M,
)
GOAL = re.compile(r"^[ \t]*(?:goal|given)\.")
PART = r"[\w'\-]"
OTHER = {"judges-as": "JudgesAs"}


def texts(endings):
    for folder, dirs, files in os.walk("crates"):
        dirs[:] = sorted(d for d in dirs if d != "out")
        for f in sorted(files):
            if f.endswith(endings):
                yield os.path.join(folder, f)


def read(path):
    with open(path, encoding="utf-8") as f:
        return f.read()


def declared():
    """Each declared name with a dash, and whether it is a fact or a record; and all other declared names."""
    dashed, plain = {}, set()
    for path in texts((".antt",)):
        for m in DECLARED.finditer(read(path)):
            name = m["name"]
            if GOAL.match(m["type"]):
                continue
            if "-" not in name or not re.fullmatch(r"[\w'\-]+", name):
                plain.add(name)
                continue
            dashed[name] = dashed.get(name, False) or name[0].isupper() or bool(m["kind"])
    return dashed, plain


def new_name(name, is_type):
    if name in OTHER:
        return OTHER[name]
    if is_type:
        head, *rest = name.split("-")
        return head[0].upper() + head[1:] + "".join(w[:1].upper() + w[1:] for w in rest)
    return name.replace("-", "_")


def main():
    dashed, plain = declared()
    turned = {n: new_name(n, t) for n, t in dashed.items()}
    taken = {}
    for old, new in sorted(turned.items()):
        if new in plain or new in taken:
            print(f"falls together: {old} and {taken.get(new, new)} as {new}")
        taken[new] = old
    if "--list" in sys.argv:
        for old, new in sorted(turned.items()):
            print(old, new)
        return
    longest_first = sorted(turned, key=len, reverse=True)
    find = re.compile(r"(?<!" + PART + r")(?:" + "|".join(map(re.escape, longest_first)) + r")(?!" + PART + r")")
    for path in texts((".antt", ".rt")):
        old = read(path)
        new = find.sub(lambda m: turned[m[0]], old)
        if new != old:
            with open(path, "w", encoding="utf-8") as f:
                f.write(new)


main()
