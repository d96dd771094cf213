#!/usr/bin/env python3
"""Spells the fields of some records of proofs/, and one definition of specs/, with `_` in place of a dash: a dash joins two names, and these are words.

usage: python3 tools/respell_fields.py [FOLDER]    after respell.py, at the top: rewrites the .antt files below FOLDER/crates; again it changes nothing

A field is known by how it is read (`s.used-at`), by where it is written (`record { used-at = ..`), and in the files of OWN_FILES by the start of a line:
lemmas have some of these names too, and keep them.
"""

import os
import re
import sys

FIELDS = "not-deep not-worn places-fit reader-fits words-fit used-fit pages-least pages-most slots-least slots-most handed-overwritten committed-taken"
FIELDS += " taken-dropped record-at word-at used-at last-is numbers-room values-room committed-below"
FIELD = "(" + "|".join(FIELDS.split()) + r")(?![\w'\-])"
READ = re.compile(r"(?<=[\w')])\." + FIELD)
WRITTEN = re.compile(r"(?<=[{;] )" + FIELD + "(?= =)")
OWN = re.compile(r"(?m)^(\s+(?:pub )?)" + FIELD + "(?= [:=])")
OWN_FILES = ("begin/Laws", "read/Kept", "rules/proofs/shape/Laws", "accounts/Commit", "accounts/Reserve", "invariant/Accounts", "drain/Singly")


def under(match):
    return match.group().replace("-", "_")


def turned(path, text):
    text = text.replace("k1-to-k8", "k1_to_k8")
    if "/proofs/" not in path:
        return text
    text = WRITTEN.sub(under, READ.sub(under, text))
    if path.endswith(tuple(f + ".antt" for f in OWN_FILES)):
        text = OWN.sub(under, text)
    return text


def main(argv):
    for folder, dirs, files in os.walk(os.path.join(argv[0] if argv else ".", "crates")):
        dirs[:] = [d for d in dirs if d not in ("out", "data")]
        for name in files:
            path = os.path.join(folder, name)
            if not name.endswith(".antt"):
                continue
            with open(path, encoding="utf-8") as it:
                old = it.read()
            new = turned(path, old)
            if new != old:
                with open(path, "w", encoding="utf-8") as it:
                    it.write(new)


main(sys.argv[1:])
