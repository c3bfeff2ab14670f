#!/usr/bin/env python3
"""Places of the points of docs/DESIGN-PASS.md in crates/*/src: python3 tools/design_counts.py [COMMIT] [--list]. Without a commit, those of the work tree."""
import collections
import glob
import os
import re
import subprocess
import sys

ARGS = [a for a in sys.argv[1:] if not a.startswith("--")]
LIST = "--list" in sys.argv
COMMIT = ARGS[0] if ARGS else None


def sources():
    """Each source file's path and text, at the commit or in the work tree."""
    if COMMIT:
        paths = subprocess.run(["git", "ls-tree", "-r", "--name-only", COMMIT, "crates"], capture_output=True, text=True, check=True).stdout.split("\n")
        for p in paths:
            if re.match(r"crates/\w+/src/\w+\.rt$", p):
                yield p, subprocess.run(["git", "show", f"{COMMIT}:{p}"], capture_output=True, text=True, check=True).stdout
    else:
        for p in sorted(glob.glob("crates/*/src/*.rt")):
            yield p, open(p).read()


def functions(text):
    """Name, head and body of each function."""
    for m in re.finditer(r"^( *)(?:pub(?:\(crate\))? )?(?:extern \"C\" )?fn (\w+)(.*?)\n?\1\{\n(.*?)^\1\}\n", text, flags=re.M | re.S):
        yield m.group(2), m.group(3), m.group(4)


def option_shaped(text):
    """Enums that say what Option and Result say: two variants, or one for a refusal or for nothing beside others."""
    for m in re.finditer(r"^(?:pub(?:\(crate\))? )?enum (\w+) \{\n(.*?)^\}", text, flags=re.M | re.S):
        variants = re.findall(r"^    (\w+)(\(?)", m.group(2), flags=re.M)
        names = [v for v, _ in variants]
        payloads = [bool(p) for _, p in variants]
        two = len(variants) == 2 and any(payloads)
        spare = any(n in ("Refused", "Not", "Wrong", "Malformed", "Unwritten", "Nobody") for n in names)
        if two or spare:
            yield "enum " + m.group(1)


def flags_and_numbers(text):
    """Flags and numbers with a value that counts only under them."""
    for m in re.finditer(r"^(?:pub(?:\(crate\))? )?struct (\w+) \{\n(.*?)^\}", text, flags=re.M | re.S):
        if re.search(r"^    pub (\w+: bool|refusal: u32|answer: \w+),", m.group(2), flags=re.M):
            yield "struct " + m.group(1)
    for name, head, _ in functions(text):
        if re.search(r"\w+: &mut (u32|usize|u16)\b", head):
            yield "lent number, fn " + name
        if name.endswith("refusal") and "-> u32" in head:
            yield "refusal or 0, fn " + name


def kinds(text):
    """Numbers for kinds: constants of one type that count up or down from each other, two or more in a row."""
    consts = [(m.start(), m.group(1), m.group(2), int(m.group(3))) for m in re.finditer(r"const (\w+): (usize|u32|u8) = (\d+);", text)]
    row = []
    for i, c in enumerate(consts):
        if row and c[2] == row[-1][2] and abs(c[3] - row[-1][3]) == 1 and c[3] < 40:
            row.append(c)
            continue
        if len(row) > 1:
            yield f"{row[0][1]}..{row[-1][1]} ({len(row)})"
        row = [c] if c[3] < 40 else []
    if len(row) > 1:
        yield f"{row[0][1]}..{row[-1][1]} ({len(row)})"


def refusal_literals(text):
    """Refusal numbers written as numerals."""
    for m in re.finditer(r"Refused\((\d+)|refusal: ([1-9]\d*)|refusal\((\d+),|\*number = ([1-9]\d*)|no_(?:report|places)\((\d+)", text):
        yield m.group(0)
    for name, _, body in functions(text):
        if "refusal" in name or name == "fault":
            for m in re.finditer(r"^ +(?:return )?([1-9]\d*)(;|$)", body, flags=re.M):
                yield f"{m.group(1)} in fn {name}"


def index_loops(text):
    """Loops with an index, a place or a count that the body steps by one."""
    for name, _, body in functions(text):
        lines = body.split("\n")
        for i, line in enumerate(lines):
            m = re.match(r"( *)while (.*) \{$", line)
            if not m:
                continue
            inner = []
            for later in lines[i + 1:]:
                if later.startswith(m.group(1) + "}"):
                    break
                inner.append(later)
            stepped = re.findall(r"^ *(\w+) (?:[+-]= 1|= \1 [+-] 1);", "\n".join(inner), flags=re.M)
            if any(re.search(rf"\b{v}\b", m.group(2)) for v in stepped):
                yield f"fn {name}: while {m.group(2)}"


def other_loops(text):
    """Loops that are no count."""
    counted = sum(1 for _ in index_loops(text))
    for name, _, body in functions(text):
        for line in body.split("\n"):
            if re.match(r" *(while .*|loop) \{$", line):
                yield name
    # the caller subtracts those that are counts
    yield from ["-"] * 0


def by_hand(text):
    """Tests and conversions that a derive, an operator or a method of the library says."""
    for name, head, body in functions(text):
        code = [line.strip() for line in body.split("\n") if line.strip()]
        joined = " ".join(code)
        arms = re.match(r"match \w+ \{ (.*) \}$", joined)
        if arms and re.fullmatch(r"(?:[\w:]+(?:\([^)]*\))? => (?:return )?(?:true|false),? ?)+", arms.group(1)):
            yield f"match for a test, fn {name}"
        elif re.fullmatch(r"(?:if [^{}]+ \{ return (?:true|false|!?\w+|\w+\([^{}]*\)); \} )+(?:true|false|!?[\w.]+(?:\([^{}]*\))?|\w+ (?:==|<=|<|!=) .*)", joined) and "-> bool" in head and "while" not in joined:
            yield f"ifs for && or ||, fn {name}"
        elif re.fullmatch(r"\w+ as \w+", joined):
            yield f"as, fn {name}"
        elif re.search(r"while .*!= ", joined) and "len()" in joined and name.startswith("same"):
            yield f"equality, fn {name}"


def twins(files):
    """Functions whose bodies are one but for names and numbers."""
    groups = collections.defaultdict(list)
    for path, text in files:
        for name, head, body in functions(text):
            code = re.sub(r"//.*", "", body)
            code = re.sub(r"\b\d+\b", "0", re.sub(r"\b(?!(?:if|while|loop|for|in|let|mut|return|match|else|true|false)\b)[A-Za-z_]\w*(?:::\w+)*", "x", code))
            code = re.sub(r"\s+", " ", code)
            if len(code) > 90:
                groups[code].append(f"{path}: {name}")
    return [g for g in groups.values() if len(g) > 1]


def repeated_facts(files):
    """Facts that stand in the requires of three or more functions."""
    facts = collections.Counter()
    for _, text in files:
        for m in re.finditer(r"^ *requires (?:\w+ )?\{ (.*) \}$", text, flags=re.M):
            depth, start, parts = 0, 0, []
            s = m.group(1)
            for i, ch in enumerate(s):
                depth += ch in "(" 
                depth -= ch in ")"
                if ch == "×" and depth == 0:
                    parts.append(s[start:i])
                    start = i + 1
            parts.append(s[start:])
            for p in {re.sub(r"\b\w+\.(now|old)\b", r"_.\1", q.strip().strip("()")) for q in parts}:
                facts[p] += 1
    return [f"{n} × {f}" for f, n in facts.most_common() if n >= 3]


def groups_of_parameters(files):
    """Parameters that travel together through three or more functions: the heads' leading references."""
    heads = collections.Counter()
    for _, text in files:
        for _, head, _ in functions(text):
            names = re.findall(r"(\w+): ", head.split("->")[0])
            for k in (("text", "scratch"), ("text", "scratch", "run"), ("ends", "initials", "n"), ("representatives", "states"), ("at", "i")):
                if all(x in names for x in k):
                    heads[k] += 1
    return [f"{n} × {', '.join(k)}" for k, n in heads.most_common() if n >= 3]


def main():
    files = list(sources())
    rows = [
        ("1 enums of the shape of Option or Result", [f"{p}: {x}" for p, t in files for x in option_shaped(t)]),
        ("1 flags and numbers beside a value", [f"{p}: {x}" for p, t in files for x in flags_and_numbers(t)]),
        ("1 numbers for kinds", [f"{p}: {x}" for p, t in files for x in kinds(t)]),
        ("1 refusal numbers as numerals", [f"{p}: {x}" for p, t in files for x in refusal_literals(t)]),
        ("2 functions that are one but for names and numbers", [" = ".join(g) for g in twins(files)]),
        ("3 loops that count an index by hand", [f"{p}: {x}" for p, t in files for x in index_loops(t)]),
        ("3 other while and loop", [f"{p}: {x}" for p, t in files for x in other_loops(t)]),
        ("4 tests and conversions by hand", [f"{p}: {x}" for p, t in files for x in by_hand(t)]),
        ("5 facts in three or more contracts", repeated_facts(files)),
        ("5 parameters that travel together", groups_of_parameters(files)),
    ]
    counted = len(rows[5][1])
    for title, places in rows:
        n = len(places) - counted if title.startswith("3 other") else len(places)
        print(f"{n:4} {title}")
        if LIST and not title.startswith("3 other"):
            for p in places:
                print("       " + p)


main()
