#!/usr/bin/env python3
"""Spells the repository's own definitions and lemmas as today's Rattle has names: words in snake case.

usage: python3 tools/respell.py        at the top of the repository, once, after the kit's script has turned the spelling of the library

tools/respell.tsv has a row for each name: the old one, the new one and, where the name means something else elsewhere, the
files or folders in which alone it turns. A name turns as a whole word: in an .antt file everywhere but in a comment's plain
words, in an .rt file in clauses and in 'ghost use', in a must-fail edit in the two texts, in a page between backticks. A name
with the ending _lem is not written behind 'tie.', 'goal.' or a step of 'c', where Rattle has made the name. A second run would turn some names twice.
"""

import glob
import os
import re
import sys

WORD = re.compile(r"[^\s(){}.;,@\"«»\u0060|\[\]]+")
SPAN = re.compile(r"\u0060[^\u0060\n]+\u0060")
CLAUSE = re.compile(r"ghost use [^;]*;|(?:requires|ensures)\*?(?: \w+)? \{")
MIXFIX = {"◌andThen◌": "◌and_then◌", "andThen": "and_then"}


def rows():
    with open(os.path.join(os.path.dirname(os.path.abspath(__file__)), "respell.tsv"), encoding="utf-8") as f:
        for line in f:
            old, new, *where = line.rstrip("\n").split("\t")
            yield old, new, where[0].split() if where else []


def turn(text, table, behind_dot=True):
    def one(m):
        word = m.group(0)
        if word in MIXFIX:
            return MIXFIX[word]
        new = table.get(word)
        if new is None:
            return word
        head = text[: m.start()]
        if head.endswith("."):
            holder = re.search(r"([^\s(){};,]*)\.$", head)
            # a step of a proof's record, and what the record holds, have Rattle's own names
            if re.match(r"(?:tie|goal|c|w|l)(?:\.|$)", holder.group(1)) and new.endswith("_lem"):
                return word
        return new

    return WORD.sub(one, text)


def antt(text, table):
    out = []
    for line in text.split("\n"):
        at = re.search(r"(?:^|(?<=\s))--(?=\s|$)", line)
        code, note = (line[: at.start()], line[at.start() :]) if at else (line, "")
        out.append(turn(code, table) + SPAN.sub(lambda m: turn(m.group(0), table), note))
    return "\n".join(out)


def closed(text, at):
    """The place past the brace that closes the clause which opens before `at`."""
    depth = 1
    while depth:
        depth += {"{": 1, "}": -1}.get(text[at], 0)
        at += 1
    return at


def rt(text, table):
    out, at = [], 0
    for m in CLAUSE.finditer(text):
        if m.start() < at:
            continue
        end = closed(text, m.end()) if m.group(0).endswith("{") else m.end()
        out += [text[at : m.start()], turn(text[m.start() : end], table)]
        at = end
    return "".join(out) + text[at:]


def edit(text, table):
    lines = text.split("\n")
    of = next((l[6:].strip() for l in lines if l.startswith("file: ")), "")
    clauses = of.endswith(".rt")
    own = {k: v for k, v in table.items() if re.search(r"[a-z0-9][A-Z]", k)} if clauses else table
    return "\n".join(l if l.startswith("file: ") else turn(l, own) for l in lines)


def main():
    all_rows = list(rows())
    kinds = {".antt": antt, ".rt": rt, ".edit": edit}
    found = [p for k in kinds for p in glob.glob("crates/**/*" + k, recursive=True)]
    found += glob.glob("docs/*.md") + ["README.md"]
    for path in sorted(p for p in found if "/out/" not in p):
        table = {o: n for o, n, where in all_rows if not where or any(path.startswith(w) for w in where)}
        with open(path, encoding="utf-8") as f:
            text = f.read()
        kind = os.path.splitext(path)[1]
        new = kinds[kind](text, table) if kind in kinds else SPAN.sub(lambda m: turn(m.group(0), table), text)
        if new != text:
            with open(path, "w", encoding="utf-8") as f:
                f.write(new)


sys.exit(main())
