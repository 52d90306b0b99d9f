#!/usr/bin/env python3
"""Brings the repository's own definitions, lemmas, fields and constructors to today's spelling: words in snake case.

    python3 tools/port/respell.py

Run once, at the top, on what the kit's port.py leaves. names.tsv has each name and its new spelling; a lemma that
would fall together with its definition ends in _lem. A name that the library has, too, is respelled only in files that
declare it or bring it in from a crate of this repository.
"""
import glob
import os
import re

here = os.path.dirname(os.path.abspath(__file__))
names = dict(line.rstrip("\n").split("\t") for line in open(os.path.join(here, "names.tsv")))
# names that the library has, too
SHARED = ["all-below", "le-true", "map-append", "or-none", "rest-is"]

part = r"[\w\-'′]"
token = re.compile(rf"(?<!{part}){part}+(?!{part})")
crates = {line.split(":")[0].split()[0] for line in open("crates.txt") if line.strip() and not line.startswith("#")}


def ours(text, name):
    """Whether the text declares the name, or brings it in from a crate of this repository."""
    if re.search(rf"^\s*(?:pub |abbrev |unfoldable )*{re.escape(name)} :", text, re.M):
        return True
    for found in re.finditer(r"use Rattle\.(\w+)\.[\w.]*\{([^}]*)\}", text):
        if found.group(1) in crates and name in [n.strip() for n in found.group(2).split(",")]:
            return True
    return False


def respelled(line, kept):
    """The line with today's names; in a comment words with a dash are words, but between backticks."""
    spelled = lambda text: token.sub(lambda found: found.group() if found.group() in kept else names.get(found.group(), found.group()), text)
    if not re.match(r"\s*(--|//)", line):
        return spelled(line)
    parts = line.split("`")
    return "`".join(spelled(part) if i % 2 or not re.search(r"[a-z]-[a-z]", part) else part for i, part in enumerate(parts))


for path in sorted(glob.glob("crates/*/**/*.antt", recursive=True) + glob.glob("crates/*/src/**/*.rt", recursive=True)):
    text = open(path).read()
    kept = {name for name in SHARED if name in text and not ours(text, name)}
    if path.endswith(".rt"):
        # the code's own functions keep their names
        kept |= {name for name in names if re.fullmatch(r"[a-z_]+", name)}
    new = "\n".join(respelled(line, kept) for line in text.split("\n"))
    if new != text:
        open(path, "w").write(new)
