#!/usr/bin/env python3
"""Counts, in the src/ of every crate below a folder, the places that docs/DESIGN-PASS.md speaks of, point by point.

usage: tools/counts.py [FOLDER] [--list]        FOLDER is the top of a repository, by default this one; --list names each place

Of a commit: then=$(mktemp -d) && git archive COMMIT crates | tar -x -C $then && tools/counts.py $then
"""
import re
import sys
from collections import Counter
from pathlib import Path

root = Path(next((a for a in sys.argv[1:] if not a.startswith("--")), "."))
listed = "--list" in sys.argv
files = sorted(root.glob("crates/*/src/**/*.rt"))
lines = [(f.relative_to(root / "crates"), n, t) for f in files for n, t in enumerate(f.read_text().splitlines(), 1)]
texts = {f.relative_to(root / "crates"): f.read_text() for f in files}


def show(name, found):
    print(f"{len(found):5}  {name}")
    if listed:
        for place in found:
            print(f"         {place}")


def grep(pattern):
    return [f"{f}:{n}: {t.strip()}" for f, n, t in lines if re.search(pattern, t)]


def items(pattern):
    """Declarations whose body ends at a line that is a lone brace: (place, name, body)."""
    return [(f"{f}:{t[:m.start()].count(chr(10)) + 1}", m.group(1), m.group(2))
            for f, t in texts.items() for m in re.finditer(pattern + r"(.*?)\n\}", t, re.S | re.M)]


functions = [(f"{f}:{t[:m.start()].count(chr(10)) + 1}", m.group(1), m.group(2), m.group(3))
             for f, t in texts.items()
             for m in re.finditer(r"^ *(?:pub )?(?:extern \"C\" )?fn (\w+)[^(]*\((.*?)\)(.*?)^ *\{$", t, re.S | re.M)]

# 1
show("1  enums", [f"{p} {n}" for p, n, _ in items(r"^(?:pub )?enum (\w+) \{")])
show("1  enums of the shape of Option or Result", [
    f"{p} {n}" for p, n, body in items(r"^(?:pub )?enum (\w+) \{")
    if re.search(r"^    (Refused|Bad|Full|Short|Nothing|Open|None)\b", body, re.M) and not re.search(r"^    Long", body, re.M)
    and not re.search(r"^    Decided", body, re.M)])
show("1  structs in which a Bool, a refusal or an ending says whether the fields beside it mean anything", [
    f"{p} {n}" for p, n, body in items(r"^(?:pub )?struct (\w+)(?:<[^>]*>)? \{")
    if re.search(r"^    pub (good|fits|short|asked|moded|end): ", body, re.M)])
show("1  numbers for kinds or refusals", grep(r"^const (TABLE|POLICY|LOG|SCRATCH|TEXT|CHECK_\w+|DUAL|REDUCE|READ_\w+|WRITE_\w+): usize")
     + grep(r"known: &(mut )?\[usize; 5\]"))
# 2
shapes = []
for f, t in texts.items():
    rows = t.splitlines()
    for n, row in enumerate(rows):
        m = re.match(r"^( *)(?:pub )?(?:extern \"C\" )?fn (\w+)", row)
        if not m:
            continue
        start = next((k for k in range(n, len(rows)) if rows[k] == m.group(1) + "{" or rows[k].endswith(" {") and not rows[k].lstrip().startswith(("requires", "ensures", "×"))), None)
        end = next((k for k in range(start or n, len(rows)) if rows[k] == m.group(1) + "}"), None)
        if start and end:
            shapes.append((f"{f}:{n + 1}", m.group(2), re.sub(r"\b\w+\b", "x", "\n".join(rows[start + 1:end]))))
crate = lambda place: str(place).split("/")[0]
show("2  functions whose body, but for names and numbers, is that of another of the crate", [
    f"{p} {n}" for p, n, b in shapes if b.count("\n") >= 2 and sum(1 for q, _, c in shapes if b == c and crate(p) == crate(q)) > 1])
# 3
show("3  loops by while or loop", grep(r"^\s*(?:'\w+: )?(while|loop)\b|= .*\bloop \{"))
show("3  loops by for", grep(r"^\s*for "))
# 4
show("4  lines that pair a number with a variant by hand", grep(r"^\s+[0-9]+ => \w+::|\w+::\w+(\(\w+\))? => ([0-9]+,|\{ if)"))
show("4  functions that the library has", [f"{p} {n}" for p, n, _, _ in functions if n in (
    "greater", "lendable", "more_words", "either", "less", "magnitude", "equal_words", "copy_words", "copy_place", "clear", "clear_bytes",
    "left", "right", "number", "refusal_of", "numbers_at", "word", "same")])
# 5
show("5  functions with table, words, log and links", [f"{p} {n}" for p, n, a, _ in functions
     if all(re.search(rf"\b{x}: ", a) for x in ("words", "log", "links")) ])
show("5  functions with above (or level), scope and at", [f"{p} {n}" for p, n, a, _ in functions
     if re.search(r"\b(above|level): ", a) and re.search(r"\bscope: ", a) and re.search(r"\bat: ", a)])
show("5  functions with a text and an index in it", [f"{p} {n}" for p, n, a, _ in functions
     if re.search(r"\btext: &\[u8\]", a) and re.search(r"\b(at|from): usize", a)])
show("5  functions with a buffer and where a text in it ends", [f"{p} {n}" for p, n, a, _ in functions
     if re.search(r"\bout: &mut \[u8\]", a) and re.search(r"\b(before|at): (Option<usize>|Put|usize)", a)])
show("5  functions with known and set", [f"{p} {n}" for p, n, a, _ in functions if "known: " in a and "set: " in a])
clauses = Counter()
for p, n, a, c in functions:
    for part in set(re.split(r" × |\n", " ".join(re.findall(r"requires(?: \w+)? \{(.*?)\}\n", c + "\n", re.S)))):
        part = part.strip(" ×()")
        if len(part) > 12:
            clauses[part] += 1
show("5  facts in the requires of three functions or more", [f"{k} × {t}" for t, k in clauses.most_common() if k >= 3])
# 6
show("6  arrays of a fixed length", grep(r"\[\w+; \w+\]"))
# 7
show("7  functions that go by a kind, a call or a Bool that says which", [f"{p} {n}" for p, n, a, _ in functions
     if re.search(r"\b(kind: (Kind|bool)|call: usize|every: bool)", a)])
# 8
show("8  files of proofs (each with its number of lines)", [
    f"{f.relative_to(root / 'crates')}: {len(f.read_text().splitlines())}" for f in sorted(root.glob("crates/*/proofs/**/*.antt"))])
show("8  lines of proofs", [""] * sum(len(f.read_text().splitlines()) for f in root.glob("crates/*/proofs/**/*.antt")) if not listed else [])
