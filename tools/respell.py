#!/usr/bin/env python3
"""Spells the repository's own definitions and lemmas as the toolchain's guides ask, after the kit's port.py has run.

usage: tools/respell.py [--check]        at the top of the repository

A word in camel case becomes one in snake case (goodRecord -> good_record), also as a part of a name with dashes. In a name with
dashes a dash stays where it joins two names (dual-greatest), and a plain word is added with an underscore (turn-stop -> turn_stop).
Types, modules and what stands in quotes are left alone, and so are the names of Rattle's goals. Where two names would fall together,
it names both and writes nothing. Run it until it says "0 names".
"""

import collections
import pathlib
import re
import sys

WORD = r"[^\s(){}.;,@\"«»\[\]\\`]+"
TOKEN = re.compile(r"\"(?:[^\"\\]|\\.)*\"|" + WORD)
# Lemmas whose names would fall together with those of the functions that they are about.
APART = {
    "among_first": "among_first_lem",
    "at-end": "at_the_end",
    "begins-with": "begins_with_lem",
    "goes_on": "goes_on_lem",
    "ground-atom": "ground_atom_lem",
    "is_false": "is_false_lem",
    "lent_row": "lent_row_lem",
    "parts_all": "parts_all_lem",
    "read_whole": "read_whole_lem",
    "same_kind": "same_kind_lem",
}
DEFINED = re.compile(r"(?m)^[ ]*(?:(?:unfoldable|abbrev|pub) )*(" + WORD + r") :(?=\s)(?! tie\.| goal\.)")
BOUND = re.compile(r"(?m)^[ ]*(?:pub )?(?:data|record) (" + WORD + r")")


def camel(part):
    return re.fullmatch(r"[a-z][A-Za-z0-9_']*", part) and re.search(r"[a-z0-9'][A-Z]", part)


def snake(part):
    return re.sub(r"(?<=[a-z0-9'])([A-Z])", lambda m: "_" + m[1].lower(), part) if camel(part) else part


def texts(root):
    for at in sorted(root.glob("crates/*/*/**/*")):
        if at.is_file() and at.relative_to(root).parts[2] in ("specs", "proofs", "src") and at.suffix in (".antt", ".rt"):
            yield at


def main():
    root = pathlib.Path.cwd()
    files = {at: at.read_text() for at in texts(root)}
    code = {at: re.sub(r"--[^\n]*", "", text) for at, text in files.items() if at.suffix == ".antt"}
    defined, names, tokens, imported = set(), set(), collections.Counter(), set()
    for at, text in code.items():
        # 'returns', 'loop-again' and the like of a proof of a function answer Rattle's goals.
        defined |= set(DEFINED.findall(text))
        if "/specs/" in str(at):
            names |= {it for it in DEFINED.findall(text) if "-" not in it}
        for line in re.findall(r"(?m)^(?:pub )?use (\S+)\.\{([^}]*)\}", text):
            words = {it.strip().split(" as ")[-1] for it in line[1].split(",")}
            if not line[0].startswith("Rattle.") or line[0].startswith("Rattle.std."):
                imported |= words
        # A function of the source may have the name of a definition: no clause can name the function.
        own = re.sub(r"(?m)^((?:pub )?use )\S+?(?=\.\{| as |$)", r"\1", text)
        tokens.update(m[0] for m in TOKEN.finditer(own) if m[0][0] != '"' and own[m.start() - 1 : m.start()] != ".")
    names |= {it for it in imported if "-" not in it}
    names = {snake(it) for it in names} | {"true", "false", "nil", "cons", "zero", "suc"}
    for at, text in files.items():
        if at.suffix == ".rt":
            tokens.update(it for it in TOKEN.findall(text) if camel(it))

    def turned(word):
        if APART.get(word, word) != word:
            return APART[word]
        if word in imported:
            return word
        parts = [snake(it) for it in word.split("-")]
        if len(parts) == 1 or word not in defined:
            return "-".join(parts)
        out = parts[0]
        for left, right in zip(parts, parts[1:]):
            joins = all(it in names or it[:1].isupper() or not re.match(r"[a-z]", it) for it in (left, right))
            out += ("-" if joins else "_") + right
        return out

    table = {}
    for word in tokens:
        if word in APART or any(camel(it) for it in word.split("-")) or (word in defined and "-" in word.strip("-")):
            new = turned(word)
            if new != word:
                table[word] = new
    # What an earlier run has turned.
    for old, new in APART.items():
        if new in tokens:
            table.pop(old, None)
    back = collections.defaultdict(list)
    for old, new in table.items():
        back[new].append(old)
    bad = 0
    for new, olds in sorted(back.items()):
        if len(olds) > 1 or (new in tokens and new not in APART):
            print("fall together:", ", ".join(olds + ([new] if new in tokens else [])), "->", new)
            bad += 1
    if bad:
        return 1
    changed = 0
    for at, text in files.items():

        def one(m):
            beside = text[m.start() - 1 : m.start()] + text[m.end() : m.end() + 1]
            if m[0] in APART and (at.suffix == ".rt" or "." in beside):
                return m[0]
            if at.suffix == ".rt" and not camel(m[0]):
                return m[0]
            return table.get(m[0], m[0])

        out = TOKEN.sub(one, text)
        if out != text:
            changed += 1
            if "--check" not in sys.argv:
                at.write_text(out)
    print(len(table), "names,", changed, "files")
    if "--check" in sys.argv:
        for old, new in sorted(table.items()):
            print(old, new)
    return 0


if __name__ == "__main__":
    sys.exit(main())
