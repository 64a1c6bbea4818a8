#!/usr/bin/env python3
"""Brings the repository's own definitions and lemmas to today's spelling: snake case, as `tapPlace` to `tap_place`.

usage: tools/respell.py [FOLDER]

Run it once, right after the kit's port.py, at the top of the repository or with its folder. It rewrites src/, specs/
and proofs/ of every crate in place. Functions of src/, types, modules, strings and outputs keep their names, since none
of them is in mixed case.
"""

import os
import re
import sys

# A part of a name: a dash joins parts, and each is respelled by itself.
PART = re.compile(r"(?<![\w'])[a-z][\w']*")
HUMP = re.compile(r"(?<=[a-z0-9'])([A-Z]+)")
STRING = re.compile(r'("(?:\\.|[^"\\])*")')

# A lemma that would fall together with a definition that its file names: the file, the lemma, and its new name.
APART = [("crates/stretches/proofs/Walking.antt", "walk_at", "walk_along")]


def respelled(text):
    return PART.sub(lambda part: HUMP.sub(lambda hump: "_" + hump.group(1).lower(), part.group(0)), text)


def rewritten(path, text):
    for file, old, new in APART:
        if path.endswith(file):
            text = re.sub(rf"(?<![\w'.-]){old}(?![\w'-])", new, text)
    if path.endswith(".rt"):
        return "".join(piece if piece.startswith('"') else respelled(piece) for piece in STRING.split(text))
    return respelled(text)


def main(root):
    for folder, folders, files in os.walk(os.path.join(root, "crates")):
        folders[:] = [name for name in folders if name != "out"]
        for name in files:
            if name.endswith((".rt", ".antt")):
                path = os.path.join(folder, name)
                with open(path, encoding="utf-8") as file:
                    text = file.read()
                with open(path, "w", encoding="utf-8") as file:
                    file.write(rewritten(path, text))


if __name__ == "__main__":
    main(sys.argv[1] if len(sys.argv) > 1 else ".")
