#!/usr/bin/env python3
"""Turns the names of definitions and lemmas in the pages, by tools/port/names.txt: in code spans and blocks alone.

usage: tools/port/pages.py      at the top of the repository"""

import glob
import re

ROWS = [l.rstrip("\n").split("\t") for l in open("tools/port/names.txt", encoding="utf-8") if "\t" in l and not l.startswith("met:")]
NAMES = {r[0]: r[1] for r in ROWS if re.search("[a-z0-9][A-Z]|-", r[0])}
WORD = re.compile(r"[A-Za-z][\w'-]*")


def turned(m):
    return WORD.sub(lambda w: NAMES.get(w[0], w[0]), m[0])


for page in ["README.md", "CONTRIBUTING.md", *glob.glob("docs/*.md"), *glob.glob("tools/*.md"), *glob.glob("bindings/**/*.md", recursive=True)]:
    if page.endswith(("PORT.md", "PERFORMANCE.md")):
        continue
    text = open(page, encoding="utf-8").read()
    new = re.sub(r"```.*?```|`[^`\n]+`", turned, text, flags=re.S)
    if new != text:
        open(page, "w", encoding="utf-8").write(new)
        print(page)
