#!/usr/bin/env python3
"""Spells the texts of must-fail edits as tools/respell.py spelled the files that they edit.

usage: tools/respell_edits.py        at the top of the repository, once
"""

import pathlib
import re

for at in sorted(pathlib.Path("crates").glob("*/must-fail/*.edit")):
    lines = at.read_text().split("\n")
    for i, line in enumerate(lines):
        if line.startswith(("old: ", "new: ")):
            turned = re.sub(
                r"(?<![\w'\"-])([a-z][a-z0-9]*(?:[A-Z][a-z0-9]*)+)(?![\w'\"])",
                lambda m: re.sub(r"(?<=[a-z0-9])([A-Z])", lambda n: "_" + n[1].lower(), m[1]),
                line[5:],
            )
            lines[i] = line[:5] + turned
    out = "\n".join(lines)
    if out != at.read_text():
        at.write_text(out)
        print(at)
