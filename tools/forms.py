#!/usr/bin/env python3
"""Counts the places in crates/*/src that docs/DESIGN-PASS.md counts, at a commit.

usage: python3 tools/forms.py [COMMIT]       the counts (of the working tree, if no commit is named)
       python3 tools/forms.py -l [COMMIT]    each place too
"""
import os
import re
import subprocess
import sys

FAMILIES = [
    ("1a", "own enums that could have the shape of Option or Result", r"^\s*(pub(\(crate\))? )?enum \w+"),
    ("1b", "a number where a kind, side, mark or make is meant", r"0x54|0x43|== 1 \{|^\s*[012] => |byte (==|<=) [01]|(make|kind|mark): u8|== 2$|make == |marks\[i\] == 1|0x2[12]|0x0[12],|0xFF[,)]"),
    ("1c", "a bool that says which kind", r"tags: bool|fn is_tag|fn is_of_tags"),
    ("1d", "a refusal put together by hand", r"Refusal \{$|Refusal::plain"),
    ("1e", "a result matched only to be passed on", r"Ok\((\w+|\(\))\) => Ok\("),
    ("2a", "a method of Filter written by each kind", r"fn (judge|saved_len|save|settings|clear|load|blank|allows|measures)\(", r"crates/(bloom|cuckoo|exact)/"),
    ("2b", "functions that differ in a type or a number", r"fn (number8|number16|number32|number64|level|serial_length|count|index|length|put_all|ask_all|write_rows|write_words|read_table|read_coverage|precedes|holds_in|put_into|saved|empty)\("),
    ("2c", "a macro in place of a generic function", r"macro_rules!"),
    ("3a", "a loop over numbers", r"for \w+ in [\w.]+\.\.|for \w+ in \(?\w+\.\.|for _ in [\w.]+\.\."),
    ("3b", "a loop with a hand-kept state", r"while |\bloop \{"),
    ("4a", "a conversion with a name of its own", r"fn (side_byte|kind_byte|side_of|kind_of|mark_of|number|plain|named|other|side_word|word)\("),
    ("4b", "printing by a function", r"fn (show_\w+|write_refusal|complain)\("),
    ("4c", "a copy field by field", r"hashing: self\.settings\.hashing|level: at\.level,$"),
    ("4d", "a conversion from an error, by hand", r"impl.* From<.*(AllocError|AllocFailed|fmt::Error|Refusal).*> for"),
    ("6a", "an array with a length beside it", r"\[u8; \d+\],|\[u8; \w+\],"),
    ("6b", "lists that go together", r"list: &\[Entry<I>\],|marks: &mut \[u8\],|marks: &\[u8\],"),
    ("6c", "bytes that are rows", r"rows: &\[u8\]|rows\.len\(\) / 7|coverage\.len\(\) / 7"),
    ("7a", "a command in the match that runs it", r"\b(Command|BufferCommand|RegisterCommand|Question|Part)::\w+(\(\w+\))? => [^\"]"),
    ("7b", "a value that says which make or kind runs", r"AnyLevels::\w+\(\w+\) => |AnyFilter::\w+\(\$filter\) => |[ABG]::judge\("),
    ("7c", "a command's word or form, in a match", r"\b(Command|BufferCommand|RegisterCommand|Question|Part)::\w+(\(\w+\))? => \""),
]


def files(commit):
    if commit:
        names = subprocess.run(["git", "ls-tree", "-r", "--name-only", commit, "crates"], capture_output=True, text=True, check=True).stdout.split("\n")
    else:
        names = subprocess.run(["git", "ls-files", "crates"], capture_output=True, text=True, check=True).stdout.split("\n")
    for name in names:
        if "/src/" in name and name.endswith(".rt"):
            if commit:
                yield name, subprocess.run(["git", "show", commit + ":" + name], capture_output=True, text=True, check=True).stdout
            elif os.path.exists(name):
                with open(name, encoding="utf-8") as f:
                    yield name, f.read()


def clauses(texts):
    """Clauses that stand in three functions or more, whatever the names of what they speak of."""
    found = {}
    for name, text in texts:
        for m in re.finditer(r"\b(requires|ensures)( \w+)? \{(.*?)\}$", text, re.M):
            fact = re.sub(r"\b(\w+)\.(old|new)\b", r"_.\2", m.group(3).strip())
            found.setdefault((m.group(1), fact), []).append(name + ":" + str(text[: m.start()].count("\n") + 1))
    return sorted((k, v) for k, v in found.items() if len(v) >= 3)


def heads(texts):
    """Pairs of parameters: each run of two or more typed parameters that stands in three functions or more."""
    found = {}
    for name, text in texts:
        for m in re.finditer(r"fn (\w+)(<[^(]*>)?\(([^)]*)\)", text):
            params = [" ".join(p.split()) for p in m.group(3).split(",") if ":" in p]
            for i in range(len(params) - 1):
                found.setdefault(", ".join(params[i : i + 2]), []).append(name + ":" + str(text[: m.start()].count("\n") + 1))
    return sorted((k, v) for k, v in found.items() if len(v) >= 3)


def main():
    args = sys.argv[1:]
    listed = "-l" in args
    args = [a for a in args if a != "-l"]
    texts = list(files(args[0] if args else None))
    for family in FAMILIES:
        key, what, pattern = family[:3]
        within = re.compile(family[3]) if len(family) > 3 else None
        places = []
        for name, text in texts:
            if within and not within.match(name):
                continue
            for n, line in enumerate(text.split("\n"), 1):
                code = line.split("//")[0]
                if re.search(r"^\s*(ghost|requires|ensures)\b", code) or "\u2261" in code:
                    continue
                if re.search(pattern, code):
                    places.append(f"{name}:{n}: {line.strip()}")
        print(f"{key} {what}: {len(places)}")
        if listed:
            for p in places:
                print("    " + p)
    for key, what, rows in (("5a", "facts in the clauses of three functions or more", clauses(texts)), ("5b", "pairs of parameters that stand together in three functions or more", heads(texts))):
        print(f"{key} {what}: {len(rows)}, in {sum(len(v) for _, v in rows)} places")
        if listed:
            for k, v in rows:
                print("    " + str(len(v)) + " x " + (k if isinstance(k, str) else k[0] + " " + k[1]))
                for p in v:
                    print("        " + p)


main()
