#!/usr/bin/env python3
"""Spells this repository's own definitions, fields and lemmas as today's Rattle does: `inShape` is `in_shape`, `tested-inShape` is `tested-in_shape`.

usage: python3 tools/respell.py [FOLDER]    after port.py, once, at the top: rewrites the .antt, .rt and .edit files below FOLDER/crates

A word that begins small and goes on with a capital is turned; the words that the toolchain's library has are left. A name of one letter with a capital
beside it (uR) and a byte (b'P') are left too. Text between quotes in .rt files is left. Five lemmas, of which port.py had turned the dash, would fall
together with a definition, and get their dash back.
"""

import os
import re
import sys

LEFT = {"mut_slice_Lawful", "mut_slice_Tells", "shr_slice_Lawful", "shr_slice_Tells", "uint_Makes", "uint_Tells", "walk_Meets"}
LEFT |= {"uC", "uR", "uR'", "uT", "b'P'", "b'R'", "b'T'"}
WORD = re.compile(r"(?<![\w'◌\-])[a-z][\w'\-]*[A-Z][\w'\-]*")
LEMMA = re.compile(r"(?<![\w'\-.:])(held_fits|numbers_fit|size_fits|word_fits|set_word)(?![\w'\-])")
QUOTED = re.compile(r'("(?:[^"\\\n]|\\.)*")')


def spelled(word):
    """inShape: in_shape. A part after a dash that begins with a capital is a type, and stays."""
    if word in LEFT:
        return word
    return "-".join(p if p[:1].isupper() else re.sub(r"(?<=[a-z0-9'])_?([A-Z])", lambda m: "_" + m.group(1).lower(), p) for p in word.split("-"))


def turned(text):
    return WORD.sub(lambda m: spelled(m.group()), text)


def main(argv):
    top = argv[0] if argv else "."
    seen = {}
    for folder, dirs, files in os.walk(os.path.join(top, "crates")):
        dirs[:] = sorted(d for d in dirs if d not in ("out", "data"))
        for name in sorted(files):
            if not name.endswith((".antt", ".rt", ".edit")):
                continue
            path = os.path.join(folder, name)
            with open(path, encoding="utf-8") as it:
                old = it.read()
            if "/proofs/" in path:
                old = LEMMA.sub(lambda m: m.group().replace("_", "-"), first := old)
            else:
                first = old
            if name.endswith(".rt"):
                new = "".join(p if i % 2 else turned(p) for i, p in enumerate(QUOTED.split(old)))
            else:
                new = turned(old)
            for m in WORD.finditer(old):
                seen.setdefault(spelled(m.group()), set()).add(m.group())
            if new != first:
                with open(path, "w", encoding="utf-8") as it:
                    it.write(new)
    for new, olds in sorted(seen.items()):
        if len(olds) > 1:
            print(f"fall together: {new}: {', '.join(sorted(olds))}")
    print(f"{len(seen)} words")


main(sys.argv[1:])
