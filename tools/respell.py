#!/usr/bin/env python3
"""Brings the repository's own definitions to today's spelling, after port.py: words in snake case.

usage: tools/respell.py        at the top of the repository, once, right after port.py

Turned are names of specs/ and proofs/ that begin with a small letter and have a hump, as vorticityAt and getD-filled,
a definition whose parts were joined by a dash, as depth-call, and a lemma that would then have its function's name.
Types, modules, and the scheme's one-letter symbols (X, Y, Z, H, D, B, Tu, Tv) keep theirs. A lemma keeps the dash that joins two names.
"""

import os
import re

# A name begins and ends where one of these stands.
NAME = re.compile(r"[^\s(){}.;,:@\"«»\[\]\\`⟦⟧|']+'*")
HUMP = re.compile(r"(?<=[a-z0-9])([A-Z])")
# Definitions, whose words a dash joined.
DASHED = """absolute-vorticity compare-call depth-call depth-sum east-expr energy-expr flux-expr geopotential-expr h-pieces h-term
head-expr kinetic-expr north-expr potential-expr probe-call probe-grid-call read-call south-expr squares-expr sum-all sum-e sum-f sum-m sum-p
tendencies-call u-pieces u-term v-pieces v-term vorticity-call weighted-expr west-expr write-call""".split()
# A lemma on the function that gets its name; terms of a torus; a name that another definition has.
OTHER = {"same_by": "same_by_lem", "canonT": "canon_terms", "fields-of": "joined_fields"}


def snake(name):
    if name in OTHER:
        return OTHER[name]
    if name in DASHED:
        return name.replace("-", "_")
    if not re.match(r"[a-z]", name):
        return name
    parts = name.replace("getD", "get_or").split("-")
    return "-".join(HUMP.sub(lambda m: "_" + m.group(1).lower(), p) if re.match(r"[a-z]", p) else p for p in parts)


def files():
    for top in ("crates", "edits"):
        for folder, folders, names in os.walk(top):
            folders[:] = sorted(f for f in folders if f != "out")
            for name in sorted(names):
                if name.endswith((".antt", ".rt", ".edit")):
                    yield os.path.join(folder, name)
    for page in ["README.md", "CONTRIBUTING.md"] + sorted("docs/" + f for f in os.listdir("docs") if f.endswith(".md")):
        yield page


def main():
    # What is turned in a page or an edit is what the sources declare.
    own = set()
    for path in files():
        if path.endswith((".antt", ".rt")):
            with open(path, encoding="utf-8") as it:
                own.update(NAME.findall(it.read()))
    table = {n: snake(n) for n in own if snake(n) != n}
    taken = {new: old for old, new in table.items()}
    for old, new in sorted(table.items()):
        if taken[new] != old:
            raise SystemExit(f"{old} and {taken[new]} would both be {new}")
    # A page or an edit still has the old form of what port.py itself respelled, as stateOf.
    pages = dict(table)
    for path in files():
        with open(path, encoding="utf-8", newline="") as it:
            text = it.read()
        if not path.endswith((".antt", ".rt")):
            pages.update({n: snake(n) for n in NAME.findall(text) if snake(n) != n and (snake(n) in own or snake(n) in taken)})
    for path in files():
        with open(path, encoding="utf-8", newline="") as it:
            text = it.read()
        words = table if path.endswith((".antt", ".rt")) else pages
        turned = NAME.sub(lambda m: words.get(m.group(), m.group()), text)
        if turned != text:
            with open(path, "w", encoding="utf-8", newline="") as it:
                it.write(turned)
    for old, new in sorted(table.items()):
        print(f"{old} -> {new}")


main()
