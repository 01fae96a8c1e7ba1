#!/usr/bin/env python3
"""Respells this repository's own definitions and lemmas as today's Rattle spells names: words in snake case, facts and other
types in camel case. `python3 tools/respell.py [ROOT]` collects the names that specs/ and proofs/ declare, prints each with its
new spelling, and rewrites specs/, proofs/, the clauses of src/, and names between backticks in README.md and docs/.
Run once, right after port.py. Names of the library, of goals and of src/ keep their spelling."""

import glob
import os
import re
import sys

SPECIAL = {"getD-map-all": "get_or_map_all"}
SIGNATURE = re.compile(r"^\s*(?:abbrev |unfoldable |pub |data |record |ruleset )*([^\s(){}:.,;]+)\s*(?:\{[^}]*\}\s*|\([^)]*\)\s*)*:\s", re.M)
DATA = re.compile(r"\b(?:data|record) (?:pub )?([^\s(){}:.,;]+)")
LET = re.compile(r"\blet ([^\s(){}:.,;=]+)\s*[:=]")


def code(text):
    return re.sub(r"--.*", "", text)


def respelled(name):
    if name in SPECIAL:
        return SPECIAL[name]
    if re.match(r"[A-Z]", name):
        return "".join(w[:1].upper() + w[1:] for w in name.split("-")) if "-" in name else name
    if re.match(r"[a-z]+[A-Z]", name):
        name = re.sub(r"[A-Z]", lambda m: "_" + m.group(0).lower(), name)
    return name.replace("-", "_")


def under(root, pattern):
    return sorted(p for p in glob.glob(os.path.join(root, pattern), recursive=True) if os.sep + "out" + os.sep not in p)


def names(root):
    own, goals = set(), set()
    for path in under(root, "crates/*/specs/**/*.antt") + under(root, "crates/*/proofs/**/*.antt"):
        with open(path, encoding="utf-8") as f:
            text = code(f.read())
        for m in SIGNATURE.finditer(text):
            (goals if re.match(r"(goal|given|need)\.", text[m.end():]) else own).add(m.group(1))
        own |= set(DATA.findall(text)) | set(LET.findall(text))
    return {n: respelled(n) for n in own - goals if respelled(n) != n}


def main(root):
    table = names(root)
    for n in sorted(table):
        print(n, table[n])
    one = re.compile(r"(?<!\bc\.)(?<![\w'\u2032-])(" + "|".join(re.escape(n) for n in sorted(table, key=len, reverse=True)) + r")(?![\w'\u2032\u2262-])")
    turn = lambda text: one.sub(lambda m: table[m.group(1)], text)
    for path in under(root, "crates/**/*.antt") + under(root, "crates/*/src/**/*.rt") + under(root, "README.md") + under(root, "docs/*.md"):
        with open(path, encoding="utf-8") as f:
            text = f.read()
        new = re.sub(r"`[^`\n]*`", lambda m: turn(m.group(0)), text) if path.endswith(".md") else turn(text)
        if new != text:
            with open(path, "w", encoding="utf-8") as f:
                f.write(new)


if __name__ == "__main__":
    main(sys.argv[1] if len(sys.argv) > 1 else ".")
