#!/usr/bin/env python3
"""Brings the repository's own definitions, lemmas and fields to snake case, in .rt, .antt and .edit files below crates/.

usage: python3 tools/snake.py      at the top of the repository, once, right after the kit's port.py

A part of a name that begins with a small letter and has capitals, as `wellFormed` in `wellFormed-next`, becomes `well_formed`. Types and facts keep
their capitals. `getD`, the older name of a list's element, is `get_or` in a name. The names below would fall together with others in one file.
"""

import os
import re

NAME = re.compile(r"[A-Za-z_][A-Za-z0-9_'\u2080-\u2089]*(?:-[A-Za-z0-9_'\u2080-\u2089]+)*")
CAPITAL = re.compile(r"([a-z0-9_])([A-Z])")

# by file (below crates/): a name that was there and the one that it takes, so that the name in the new spelling is free
APART = {
    "preview/specs/Answers.antt": {"in_image": "of_image"},
    "preview/proofs/Answers.antt": {"in_image": "of_image"},
    "preview/proofs/WhatIsRead.antt": {"in_image": "of_image"},
    "merge/proofs/Accepted.antt": {"leaves_in": "leaves_in_lem"},
    "merge/proofs/store_leaves/Proof.antt": {"leaves_of": "leaves_of_lem"},
}


def part(s):
    if not re.match(r"[a-z]", s):
        return s
    if s.startswith("get_d_"):
        return "get_or-" + s[6:]
    if s == "getD":
        return "get_or"
    s = CAPITAL.sub(lambda m: m.group(1) + "_" + m.group(2).lower(), s)
    return re.sub(r"[A-Z]", lambda m: m.group().lower(), s)


def name(m):
    return "-".join(part(s) for s in m.group().split("-"))


def turned(path, text):
    apart = APART.get(path, {})
    return NAME.sub(name, NAME.sub(lambda m: apart.get(m.group(), m.group()), text))


def main():
    changed = 0
    for folder, dirs, files in os.walk("crates"):
        dirs[:] = [d for d in dirs if d != "out"]
        for f in files:
            if not f.endswith((".rt", ".antt")):
                continue
            path = os.path.join(folder, f)
            with open(path, encoding="utf-8") as it:
                text = it.read()
            new = turned(os.path.relpath(path, "crates"), text)
            if new != text:
                changed += 1
                with open(path, "w", encoding="utf-8") as it:
                    it.write(new)
    print(f"snake: {changed} files changed")


if __name__ == "__main__":
    main()
