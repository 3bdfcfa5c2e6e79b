#!/usr/bin/env python3
"""Renames the definition `ground` (crate tree) to `edit_ground`, since `ground` is now a tactic's name, which specs/ may not use.

usage: python3 tools/reserved.py      at the top of the repository, once, after tools/snake.py
"""

import os
import re

WORD = re.compile(r"(?<![\w'.-])ground(?![\w'-])")

for folder, dirs, files in os.walk("crates"):
    dirs[:] = [d for d in dirs if d != "out"]
    for f in files:
        path = os.path.join(folder, f)
        if not f.endswith((".antt", ".rt")):
            continue
        with open(path, encoding="utf-8") as it:
            text = it.read()
        lines = []
        for line in text.split("\n"):
            at = line.find("--" if f.endswith(".antt") else "//")
            code, rest = (line, "") if at < 0 else (line[:at], line[at:])
            lines.append(WORD.sub("edit_ground", code) + rest)
        new = "\n".join(lines)
        if new != text:
            with open(path, "w", encoding="utf-8") as it:
                it.write(new)
