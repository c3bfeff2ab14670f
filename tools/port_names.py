#!/usr/bin/env python3
"""Brings the names of this repository's own definitions and lemmas to snake case, once, after port.py.

usage: port_names.py [FOLDER]

Beside this script lies port_names.tsv: a row for each name, old, a tab, new. It goes by whole words:
  crates/**/*.antt      every word of the code; in a comment the names in camel case, and what stands between backticks.
                        In the files of one function's proof, what follows a dot turns only where it is no step of the code;
  crates/**/*.rt        clauses and `ghost use` items alone hold such words; comments as above;
  crates/**/*.edit      as the file that the edit is of.
Names of functions, paths of modules, strings, inputs and outputs stay.
"""
import os
import re
import sys

HERE = os.path.dirname(os.path.abspath(__file__))
TOP = os.path.abspath(sys.argv[1]) if len(sys.argv) > 1 else os.path.dirname(HERE)
NAMES = dict(line.rstrip("\n").split("\t") for line in open(os.path.join(HERE, "port_names.tsv"), encoding="utf-8"))
# Names that are in snake case already, and make room for one that becomes the same: in the files of lemmas alone.
SNAKE = {old for old in NAMES if "-" not in old and not re.search(r"[a-z0-9][A-Z]", old)}
WORD = re.compile(r"[^\s(){}.;,@\"«»\[\]|⟨⟩`]+")
COMMENT = re.compile(r"(?<![^\s(){}.;,@\"«»])--[^\n]*|\{-.*?-\}", re.S)
PATH = re.compile(r"Rattle(?:\.[\w+]+)+")
FUNCTIONS = set()


def in_comment(text):
    def bare(m):
        word = m[0]
        tail = re.search(r"[':!?]*$", word)[0]
        core = word[: len(word) - len(tail)] if tail else word
        return NAMES[core] + tail if core in NAMES and "-" not in core and core not in SNAKE else word

    parts = re.split(r"(`[^`\n]*`)", text)
    return "".join(WORD.sub(lambda m: NAMES.get(m[0], m[0]), p) if p.startswith("`") else WORD.sub(bare, p) for p in parts)


def in_code(text, proof, keep):
    def word(m):
        it = m[0]
        if it not in NAMES or it in keep:
            return it
        if proof and m.start() and text[m.start() - 1] == "." and (it.replace("-", "_") in FUNCTIONS or it in SNAKE):
            return it
        return NAMES[it]

    out, at = [], 0
    for m in PATH.finditer(text):
        out += [WORD.sub(word, text[at : m.start()]), m[0]]
        at = m.end()
    # a word right after a path keeps its dot in sight
    return "".join(out + [WORD.sub(word, text[at:])])


def turned(text, proof=False, keep=frozenset()):
    out, at = [], 0
    for m in COMMENT.finditer(text):
        out += [in_code(text[at : m.start()], proof, keep), in_comment(m[0])]
        at = m.end()
    return "".join(out + [in_code(text[at:], proof, keep)])


def turned_rust(text):
    out, at = [], 0
    for m in re.finditer(r"//[^\n]*|\"(?:\\.|[^\"\\])*\"", text):
        out += [in_code(text[at : m.start()], False, SNAKE), in_comment(m[0]) if m[0].startswith("//") else m[0]]
        at = m.end()
    return "".join(out + [in_code(text[at:], False, SNAKE)])


def main():
    crates = os.path.join(TOP, "crates")
    found = []
    for folder, folders, files in os.walk(crates):
        folders[:] = sorted(it for it in folders if it not in ("out", "target"))
        found += [os.path.join(folder, it) for it in sorted(files)]
    for path in found:
        if path.endswith(".rt"):
            FUNCTIONS.update(re.findall(r"\bfn (\w+)", open(path, encoding="utf-8").read()))
    for path in found:
        if not path.endswith((".rt", ".antt", ".edit")):
            continue
        text = open(path, encoding="utf-8").read()
        inside = os.path.relpath(path, crates).split(os.sep)
        if path.endswith(".rt"):
            new = turned_rust(text)
        elif path.endswith(".edit"):
            new = turned(text, True, SNAKE)
        else:
            new = turned(text, inside[1] == "proofs" and len(inside) > 3)
        if new != text:
            open(path, "w", encoding="utf-8").write(new)


main()
