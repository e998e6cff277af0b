#!/usr/bin/env python3
"""Spells the names that this repository's own specs/ and proofs/ declare in snake case: a dash becomes an underscore.

usage: python3 tools/respell.py [FOLDER]     (default: the current folder), once, after the kit's port.py

A word that a file declares or imports is turned there, a field or a constructor everywhere; names of the kit's library
and of generated goals stay. Names that would meet another name get one of their own (APART). It prints each name that
still meets another one in some file.
"""
import os
import re
import sys

root = sys.argv[1] if len(sys.argv) > 1 else "."
NAME = r"[A-Za-z][\w']*(?:-[\w']+)+"
TOKEN = re.compile(rf"(?<![\w'\-]){NAME}(?![\w'\-])")
DECLARED = re.compile(rf"^(\s*)((?:abbrev |pub |pattern |unfoldable )*)({NAME})(?: \{{[^}}]*\}})* :(?!:)(.*)")
GENERATED = re.compile(r"^\s*(goal|given|need)\.")
IMPORTED = re.compile(r"use (Rattle\.[\w.]+)\.\{([^}]*)\}")
# Names whose plain spelling is that of a function in the code beside which they are imported.
APART = {"has-slot": "is_slot_of", "has-object": "is_object_of", "kind-table": "table_of_kinds"}


def spelled(name):
    if name in APART:
        return APART[name]
    return name.replace("getD-", "get_or-").replace("-", "_")


def files():
    for folder, dirs, names in os.walk(os.path.join(root, "crates")):
        dirs[:] = sorted(d for d in dirs if d != "out")
        for name in sorted(names):
            if name.endswith((".antt", ".rt")):
                yield os.path.join(folder, name)


def code_and_comment(line, mark):
    at = line.find(mark)
    return (line, "") if at < 0 else (line[:at], line[at:])


texts = {path: open(path, encoding="utf-8").read() for path in files()}
words, fields = set(), set()
declared = {path: set() for path in texts}
for path, text in texts.items():
    if not path.endswith(".antt"):
        continue
    record = False
    for line in text.split("\n"):
        code, _ = code_and_comment(line, "--")
        if code[:1].strip():
            record = bool(re.match(r"(abbrev )?(pub )?(record|data)\b", code))
        hit = DECLARED.match(code)
        if not hit or GENERATED.match(hit[4]):
            continue
        if record and hit[1]:
            fields.add(hit[3])
        else:
            words.add(hit[3])
            declared[path].add(hit[3])

crates = {path.split(os.sep + "crates" + os.sep, 1)[-1].split(os.sep)[0] for path in texts}
changed = 0
for path, text in texts.items():
    mark = "--" if path.endswith(".antt") else "//"
    turned = set(declared[path])
    for module, names in IMPORTED.findall(text):
        if module.split(".")[1] in crates:
            turned |= {name.strip() for name in names.split(",")} & words
    before = set(re.findall(r"(?<![\w'\-.])[A-Za-z_][\w']*(?![\w'\-])", text))

    def turn(hit):
        name = hit[0]
        if name in fields or name in turned:
            return spelled(name)
        return name

    lines = []
    for line in text.split("\n"):
        code, comment = code_and_comment(line, mark)
        parts = re.split(r'("(?:[^"\\]|\\.)*")', code)
        parts[::2] = [TOKEN.sub(turn, part) for part in parts[::2]]
        lines.append("".join(parts) + comment)
    new = "\n".join(lines)
    for name in sorted(turned):
        if spelled(name) in before and re.search(rf"(?<![\w'\-]){re.escape(name)}(?![\w'\-])", text):
            print(f"meets: {path}: {name} -> {spelled(name)}")
    if new != text:
        open(path, "w", encoding="utf-8").write(new)
        changed += 1
print(f"{len(words)} words, {len(fields)} fields, {changed} files changed")
