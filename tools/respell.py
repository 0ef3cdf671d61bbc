#!/usr/bin/env python3
"""Respells the repository's own definitions and lemmas in snake case, by the table beside this script.

usage: python3 tools/respell.py [FOLDER]

Run once in a checkout, after /opt/rattle/port/port.py and before any edit by hand. FOLDER is the checkout, the current
folder if it is left out. Whole words turn: in .antt files outside comments and quoted text, in .rt files within clauses
and `ghost use` items, in the Rattle terms of .edit files, and in code spans of comments and of .md files. A function of
src/, a string, an input and an output keep their names.
"""

import os
import re
import sys

HERE = os.path.dirname(os.path.realpath(__file__))
WORD = re.compile(r"(?<![\w'’-])[A-Za-z][\w'’-]*")
SPAN = re.compile(r"`[^`\n]*`")
QUOTED = re.compile(r'"(?:[^"\\\n]|\\.)*"|(?:(?<=\s)|^)--[^\n]*|//[^\n]*', re.M)
GHOST = re.compile(r"ghost\s+use\b[^;]*;|(?:requires|ensures)\*?\s*(?:\w+\s*)?\{[^\n]*|ghost\s+\w+\s*[:=]\s*\{[^\n]*")


def table():
    rows = {}
    with open(os.path.join(HERE, "respell.tsv"), encoding="utf-8") as f:
        for line in f:
            old, new = line.rstrip("\n").split("\t")
            rows[old] = new
    return rows


ROWS = table()
HOLDS = re.compile(r"(^|/)specs/|(^|/)proofs/")


def turned(text):
    return WORD.sub(lambda m: ROWS.get(m.group(0), m.group(0)), text)


def spans(text):
    return SPAN.sub(lambda m: turned(m.group(0)), text)


def antt(text):
    out, at = [], 0
    for m in QUOTED.finditer(text):
        out.append(turned(text[at : m.start()]))
        out.append(m.group(0) if m.group(0).startswith('"') else spans(m.group(0)))
        at = m.end()
    out.append(turned(text[at:]))
    return "".join(out)


def rt(text):
    return GHOST.sub(lambda m: antt(m.group(0)), text)


def edit(text):
    m = re.search(r"^file: (.*)$", text, re.M)
    return antt(text) if m and HOLDS.search(m.group(1)) else rt(text)


WAYS = {".antt": antt, ".rt": rt, ".edit": edit, ".md": spans}


def main():
    top = sys.argv[1] if len(sys.argv) > 1 else "."
    changed = 0
    for root in ("crates", "docs", "README.md"):
        at = os.path.join(top, root)
        found = [at] if os.path.isfile(at) else []
        for folder, dirs, files in os.walk(at):
            dirs[:] = sorted(d for d in dirs if d != "out")
            found += [os.path.join(folder, f) for f in sorted(files)]
        for p in found:
            way = WAYS.get(os.path.splitext(p)[1])
            if way is None or not os.path.isfile(p) or os.path.basename(p).startswith("PORT"):
                continue
            with open(p, encoding="utf-8") as f:
                old = f.read()
            new = way(old)
            if new != old:
                changed += 1
                with open(p, "w", encoding="utf-8") as f:
                    f.write(new)
    print(f"respell: {changed} files changed")


if __name__ == "__main__":
    main()
