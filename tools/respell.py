#!/usr/bin/env python3
"""Brings the repository's own definitions, lemmas and fields to snake case: each name at the left of a line of respell.txt becomes the one at its right.

usage: respell.py [REPOSITORY]     once, after the kit's port.py

Code, clauses, specs/, proofs/ and must-fail edits are read by whole names; in comments and in pages names within backquotes are. Functions of src/ have no
name in the list. A file Contracts.antt of specs/ becomes Clauses.antt, since the kit now makes a module of that name.
"""

import glob
import os
import re
import sys

HERE = os.path.dirname(os.path.realpath(__file__))
NAME = r"[^\s(){}.;,@\"«»\[\]\\`]+"
PARTS = re.compile(r"(?P<comment>(?:--|//)[^\n]*)|\"(?:[^\"\\\n]|\\.)*\"|«[^»]*»|(?P<name>" + NAME + ")")
QUOTED = re.compile(r"`[^`\n]*`")


def names():
    with open(os.path.join(HERE, "respell.txt"), encoding="utf-8") as file:
        return dict(line.split() for line in file)


def plain(text, to):
    return re.sub(NAME, lambda it: to.get(it[0], it[0]), text)


def quoted(text, to):
    return QUOTED.sub(lambda it: plain(it[0], to), text)


def code(text, to):
    def turned(it):
        if it["comment"]:
            return quoted(it[0], to)
        return to.get(it[0], it[0]) if it["name"] else it[0]

    return PARTS.sub(turned, text)


def source(text, to):
    """Functions of src/ keep their names: a name that is in snake case already is one of specs/ or proofs/."""
    return code(text, {name: new for name, new in to.items() if re.search("[A-Z-]", name)})


def edit(text, to):
    lines = text.split("\n")
    turn = source if re.search(r"(?m)^file: *src/", text) else code
    return "\n".join(turn(line, to) if line.startswith(("old:", "new:")) else quoted(line, to) for line in lines)


def rename_contracts(root):
    for path in glob.glob(f"{root}/crates/*/specs/Contracts.antt"):
        os.rename(path, os.path.join(os.path.dirname(path), "Clauses.antt"))


def without_contracts(text):
    return re.sub(r"(?m)(specs\.|^pub mod )Contracts\b", r"\1Clauses", text)


def main(argv):
    root = argv[0] if argv else "."
    to = names()
    rename_contracts(root)
    kinds = (("crates/**/*.antt", code), ("crates/**/*.rt", source), ("crates/*/must-fail/*.edit", edit), ("*.md", quoted), ("docs/*.md", quoted))
    for pattern, turn in kinds:
        for path in glob.glob(f"{root}/{pattern}", recursive=True):
            if "/out/" in path:
                continue
            with open(path, encoding="utf-8", newline="") as file:
                text = file.read()
            new = without_contracts(turn(text, to))
            if new != text:
                with open(path, "w", encoding="utf-8", newline="") as file:
                    file.write(new)
    return 0


if __name__ == "__main__":
    raise SystemExit(main(sys.argv[1:]))
