#!/usr/bin/env python3
"""Lists what changed between a commit and the working tree, old and new: public signatures, contracts, types, definitions, and the
theorems in proofs/ that README and docs/ name.

usage: tools/changes.py COMMIT        at the top of the repository; prints the list that ends docs/DESIGN-PASS.md

Signatures, contracts and definitions come from the kit's contracts.py; types and theorems are read here.
"""
import json
import re
import subprocess
import sys
import tempfile
from pathlib import Path

# The kit's script lies beside its first guide.
KIT = Path(subprocess.run(["rt", "doc"], check=True, capture_output=True, text=True).stdout.split()[-1]).parent / "port" / "contracts.py"


def one_line(text):
    return " ".join(text.split())


def types(top):
    """Public enums, structs and aliases of src/: name in its file -> text."""
    found = {}
    for f in sorted(top.glob("crates/*/src/**/*.rt")):
        where = f.relative_to(top / "crates")
        text = f.read_text()
        for m in re.finditer(r"^pub (?:enum|struct) (\w+)(?:[^\n]*;$|.*?\n\})|^pub type (\w+)[^\n]*;", text, re.S | re.M):
            body = re.sub(r"//[^\n]*", "", m.group(0))
            found[f"{where} {m.group(1) or m.group(2)}"] = one_line(body)
    return found


def public(top):
    """Public functions: crate, file and name."""
    found = set()
    for f in top.glob("crates/*/src/**/*.rt"):
        where = f.relative_to(top / "crates")
        for m in re.finditer(r"^ *pub (?:extern \"C\" )?fn (\w+)", f.read_text(), re.M):
            found.add((f"{where.parts[0]} {'/'.join(where.parts[1:])}", m.group(1)))
    return found


def theorems(top):
    """What proofs/ states: crate and name -> the type."""
    found = {}
    for f in sorted(top.glob("crates/*/proofs/**/*.antt")):
        if f.name in ("Answers.antt", "Invariants.antt"):
            continue
        crate = f.relative_to(top / "crates").parts[0]
        for m in re.finditer(r"^ *(?:abbrev |unfoldable )?pub (?:abbrev )?([\w\-']+) :((?:.*\n)(?:    .*\n)*)", f.read_text(), re.M):
            found.setdefault((crate, m.group(1)), []).append(one_line(m.group(2)))
    return found


def named(top):
    """The words in backticks of README and docs/, but for the pages about the port and this pass."""
    words = set()
    for f in [top / "README.md", *sorted((top / "docs").glob("*.md"))]:
        if f.exists() and f.name not in ("PORT.md", "DESIGN-PASS.md"):
            words.update(w for w in re.findall(r"`([\w\-']+)`", f.read_text()) if re.search("[-_]", w) or len(w) > 8)
    return words


def pair(heading, old, new):
    print(heading)
    for sign, text in (("-", old), ("+", new)):
        for line in [text] if isinstance(text, str) else text:
            print(f"{sign} {line}")


def main(commit):
    new = Path(".").resolve()
    with tempfile.TemporaryDirectory() as folder:
        old = Path(folder)
        archive = subprocess.run(["git", "archive", commit, "crates", "crates.txt", "docs", "README.md"], check=True, capture_output=True)
        subprocess.run(["tar", "-x", "-C", folder], input=archive.stdout, check=True)
        run = subprocess.run([sys.executable, str(KIT), folder, str(new), "--json"], check=True, capture_output=True, text=True)
        d = json.loads(run.stdout)

        print("### Types\n\n```diff")
        before, after = types(old), types(new)
        for name in sorted({*before, *after}):
            if before.get(name) != after.get(name):
                pair(f"  {name}", [before[name]] if name in before else [], [after[name]] if name in after else [])
        print("```\n\n### Public functions\n\n```diff")
        outside = public(old) | public(new)
        changed = {row[0]: row for row in d["signatures changed"]}
        clauses = {row[0]: row for row in d["contracts changed"]}
        is_public = lambda place: any(place.startswith(f) and place.split()[-1] == n for f, n in outside)
        for place in sorted({*changed, *clauses}):
            if not is_public(place):
                continue
            print(f"  {place}")
            if place in changed:
                print(f"- {changed[place][1]}\n+ {changed[place][2]}")
            if place in clauses:
                _, req, ens, req_new, ens_new = clauses[place]
                for sign, word, rows in (("-", "requires", req), ("-", "ensures", ens), ("+", "requires", req_new), ("+", "ensures", ens_new)):
                    for name, text in rows:
                        print(f"{sign} {word} {name + ' ' if name else ''}{{ {text} }}")
        print("```\n\n### Contracts of private functions\n\n```diff")
        for place in sorted(clauses):
            if is_public(place):
                continue
            print(f"  {place}")
            _, req, ens, req_new, ens_new = clauses[place]
            for sign, word, rows in (("-", "requires", req), ("-", "ensures", ens), ("+", "requires", req_new), ("+", "ensures", ens_new)):
                for name, text in rows:
                    print(f"{sign} {word} {name + ' ' if name else ''}{{ {text} }}")
        print("```\n\n### Functions that are gone or renamed\n")
        for row in d["functions not found again"]:
            print(f"- {row}")
        print("\n### Definitions\n\n```diff")
        for crate, name, was, now in d["definitions"]["changed"]:
            pair(f"  {crate} {name}", was, now)
        for crate, name in d["definitions"]["gone"]:
            print(f"  {crate} {name}\n- (gone)")
        print("```\n\n### Theorems in proofs/ that README or docs/ name\n\n```diff")
        words = named(old)
        before, after = theorems(old), theorems(new)
        for key in sorted(before):
            if key[1] in words and before[key] != after.get(key):
                pair(f"  {key[0]} {key[1]}", before[key], after.get(key, ["(gone)"]))
        print("```")


main(sys.argv[1])
