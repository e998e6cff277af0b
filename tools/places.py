#!/usr/bin/env python3
"""Lists the places of the source that a newer form of the language might say better, by point.

    python3 tools/places.py            a count for each point
    python3 tools/places.py N          the places of point N, one a line

A place is a place to look at, and no verdict: docs/DESIGN-PASS.md says of each kind what was done. Points:
1 enums of the shape of Option or Result, an Option of a fault, a bool as a parameter, numbers for kinds or refusals
2 functions and types that are alike but for names, types and constants
3 loops over a range of numbers, and loops without an iterator
4 conversion, comparison, copying and printing written out
5 facts that are required of a value in three or more functions, and parameters that stand together in three or more
6 lent tables and arrays in structs, and structs that only wrap one
7 a match that chooses which code runs by a number, tables of functions
8 files and lines of proofs, by crate
"""
import collections
import glob
import re
import sys

FILES = sorted(glob.glob("crates/*/src/*.rt"))


def code_of(path):
    """The lines of a file without comments and without ghost imports."""
    lines = []
    for line in open(path):
        line = re.sub(r"//.*", "", line.rstrip("\n"))
        lines.append("" if line.lstrip().startswith("ghost use") else line)
    return lines


CODE = {path: code_of(path) for path in FILES}


def matching(*patterns):
    found = []
    for path in FILES:
        for number, line in enumerate(CODE[path], 1):
            if any(re.search(p, line) for p in patterns):
                found.append(f"{path}:{number}: {line.strip()}")
    return found


def within(text, start):
    """What stands between the parenthesis at a place and the one that closes it."""
    depth = 0
    for end in range(start, len(text)):
        depth += {"(": 1, ")": -1}.get(text[end], 0)
        if depth == 0:
            return text[start + 1 : end]
    return text[start + 1 :]


class Function:
    def __init__(self, path, number, head, clauses, body):
        self.path, self.number, self.clauses, self.body = path, number, clauses, body
        self.name = re.search(r"fn (\w+)", head).group(1)
        inside = within(head, head.index("(", re.search(r"fn \w+(<.*?>)?\(", head).end() - 1))
        inside = re.sub(r"<[^<>]*>", lambda m: m.group(0).replace(",", ";"), inside)
        self.params = [re.sub(r"\s+", " ", p.strip()) for p in inside.split(",")] if inside else []
        self.params = [p for p in self.params if p and "self" not in p]


def functions():
    found = []
    for path in FILES:
        lines, i = CODE[path], 0
        while i < len(lines):
            if not re.match(r"\s*(pub(\(crate\))? )?(const |final )?fn \w+", lines[i]):
                i += 1
                continue
            start, indent = i, len(lines[i]) - len(lines[i].lstrip())
            head = lines[i]
            while head.count("(") > head.count(")"):
                i += 1
                head += " " + lines[i].strip()
            clauses = []
            i += 1
            while i < len(lines) and re.match(r"\s*(requires|ensures)\b", lines[i]):
                clauses.append(lines[i].strip())
                i += 1
            body = []
            if not head.rstrip().endswith(";") and not (clauses and clauses[-1].endswith(";")):
                if not head.rstrip().endswith("{}"):
                    while i < len(lines) and lines[i] != " " * indent + "}" and lines[i].strip() != "{}":
                        if lines[i].strip() != "{":
                            body.append(lines[i].strip())
                        i += 1
            found.append(Function(path, start + 1, head, clauses, body))
            i += 1
    return found


FUNCTIONS = functions()


def point_1():
    shape = []
    for path in FILES:
        text = "\n".join(CODE[path])
        for m in re.finditer(r"enum (\w+)(?:<[^>]*>)? \{(.*?)\n\}", text, re.S):
            cases = [c for c in re.findall(r"^\s+(\w+)(?:\(|,| \{| =)", m.group(2), re.M)]
            if len(cases) == 2:
                line = text[: m.start()].count("\n") + 1
                shape.append(f"{path}:{line}: enum {m.group(1)} of two cases")
    return shape + matching(
        r"-> Option<\w*Fault>",
        r"^\s*(pub )?(fn .*[(,] ?)?\w+: bool[,)]",
        r"\b(rule|order|number|refused|kind|fault)\b: u(8|16|32)\b",
        r"\b(rule_number|number|kind|code)\(.*\) -> u(8|16|32)\b",
        r"\b(Order|Kind|Rule|Refused)\(u16|Option<u16>\),?$",
    )


def shape_of(body):
    text = " ".join(body)
    text = re.sub(r'"[^"]*"', '""', text)
    return re.sub(r"\b[\w:]+\b", "x", text)


def point_2():
    by_shape, by_name = collections.defaultdict(list), collections.defaultdict(list)
    for f in FUNCTIONS:
        if len(" ".join(f.body)) > 40:
            by_shape[shape_of(f.body)].append(f)
        by_name[f.name].append(f)
    found = []
    for group in by_shape.values():
        if len(group) > 1:
            found.append("alike: " + ", ".join(f"{f.path}:{f.number} {f.name}" for f in group))
    for name, group in by_name.items():
        apart = {f.path.split("/")[1] for f in group}
        if len(apart) > 1 and name not in ("main", "new", "number", "fmt", "from") and all(f.body for f in group):
            found.append(f"one name: " + ", ".join(f"{f.path}:{f.number} {name}" for f in group))
    structs = collections.defaultdict(list)
    for path in FILES:
        text = "\n".join(CODE[path])
        for m in re.finditer(r"(struct|enum) (\w+)[^{;]*\{(.*?)\n\s*\}", text, re.S):
            structs[re.sub(r"\s+", " ", m.group(3))].append(f"{path} {m.group(2)}")
    found += ["one type: " + ", ".join(g) for g in structs.values() if len(g) > 1]
    return found


def point_3():
    return matching(r"\bfor \w+ in [^{]*\.\.", r"\bwhile\b", r"\bloop\b")


def point_4():
    return matching(
        r"\bimpl.* (From|TryFrom|Display|Default|PartialEq|Ord|FromStr|Iterator)\b.* for\b",
        r"\bfn (number|kind|object|refused|\w*_text|text_of|listed)\b",
        r"\bpush_str\(",
        r"\bas u32\b",
        r"\b(thread|threads|column|position|earlier|first|second|locks|slots|l|v)\b as usize",
    )


def point_5():
    found = []
    facts = collections.defaultdict(set)
    for f in FUNCTIONS:
        for clause in f.clauses:
            m = re.match(r"requires(?: \w+)? \{ (.*) \}", clause)
            if m:
                facts[re.sub(r"\.(now|old|new|entry)\b", "", m.group(1))].add(f"{f.path}:{f.number} {f.name}")
    for fact, where in sorted(facts.items()):
        if len(where) >= 3:
            found.append(f"required {len(where)} times: {fact}")
    together = collections.defaultdict(set)
    for f in FUNCTIONS:
        ps = sorted(set(f.params))
        for a in range(len(ps)):
            for b in range(a + 1, len(ps)):
                together[(ps[a], ps[b])].add(f"{f.path.split('/')[1]}::{f.name}")
    for pair, where in sorted(together.items()):
        if len(where) >= 3:
            found.append(f"together {len(where)} times: {pair[0]} and {pair[1]} ({', '.join(sorted(where))})")
    return found


def point_6():
    found = matching(r"^\s+(pub(\(crate\))? )?\w+: (&'a mut )?\[", r"^\s+(pub(\(crate\))? )?\w+: [A-Z]\w*<'a[^>]*>,")
    for path in FILES:
        text = "\n".join(CODE[path])
        for m in re.finditer(r"struct (\w+)[^{;]*\{\s*(pub(?:\(crate\))? )?(\w+): ([^\n]*),\s*\}", text):
            line = text[: m.start()].count("\n") + 1
            found.append(f"{path}:{line}: struct {m.group(1)} only wraps {m.group(4)}")
    return found


def point_7():
    found = []
    for path in FILES:
        lines = CODE[path]
        for number, line in enumerate(lines, 1):
            arms = " ".join(lines[number : number + 14])
            if re.search(r"\bmatch \w+ \{", line) and re.search(r"\b\d+ => \w+", arms):
                found.append(f"{path}:{number}: {line.strip()}")
    return found + matching(r"\bdyn\b", r": fn\(", r"\[fn\(")


def point_8():
    found = []
    for crate in sorted({p.split("/")[1] for p in FILES}):
        lemmas = glob.glob(f"crates/{crate}/proofs/*.antt")
        answers = glob.glob(f"crates/{crate}/proofs/*/**/*.antt", recursive=True)
        if lemmas or answers:
            lines = sum(len(open(p).readlines()) for p in lemmas)
            more = sum(len(open(p).readlines()) for p in answers)
            found.append(f"{crate}: {len(lemmas)} files of lemmas, {lines} lines; {len(answers)} files of answers, {more} lines")
    return found


POINTS = [point_1, point_2, point_3, point_4, point_5, point_6, point_7, point_8]

if len(sys.argv) > 1:
    for place in POINTS[int(sys.argv[1]) - 1]():
        print(place)
else:
    for number, point in enumerate(POINTS, 1):
        print(f"point {number}: {len(point())} places")
