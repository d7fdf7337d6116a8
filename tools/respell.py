#!/usr/bin/env python3
"""Brings the repository's own definitions, fields and lemmas to the spelling of the library: words in snake case.

usage: python3 tools/respell.py [--check]      at the top of the repository, once

A word in camel case that begins small (`bookOf`) becomes one in snake case (`book_of`), also as a part of a lemma's name, and in the
names of bound variables. A field of a record, a constructor, and an abbreviation in proofs/ lose their dashes (`giver-is` to `giver_is`).
The dash of a lemma's name stays, as in the library's own (`length-drop`). What begins in capitals, types and modules, stays as it is.
It goes over specs/, proofs/, src/, must-fail/ and the pages, and names what falls together with a word that was there before.
"""

import re
import sys
from pathlib import Path

ROOT = Path(__file__).resolve().parent.parent
WORD = re.compile(r"[^\s(){}\[\].,;:λ→×|`\"«»@]+")
CAMEL = re.compile(r"[a-z][a-z0-9]*[A-Z]")
HEAD = re.compile(r"^(?:pub |abbrev |unfoldable )*(?:record|data) ")
PART = re.compile(r"^\s+(?:pub |\| )?(\S+(?: \S+)*) :")
SHORT = re.compile(r"^(?:(?:pub|abbrev|unfoldable|data|record) )*(?:abbrev|unfoldable)(?: (?:pub|data|record))* (\S+) :")
# What would fall together with a word of the library or of another crate gets another name.
CHOSEN = {"getOr": "value_or", "cellIn": "cell_in_field", "all_hold": "all_hold_lem"}


def snake(part):
    """A part of a name: in snake case if it is a word in camel case that begins small, else as it is."""
    return re.sub("[A-Z]", lambda up: "_" + up[0].lower(), part) if CAMEL.match(part) else part


def respelled(word, undashed):
    """The word in today's spelling."""
    word = CHOSEN.get(word) or undashed.get(word, word)
    return "-".join(snake(part) for part in word.split("-"))


def code_of(line):
    return line.split("-- ")[0]


def undashed_words(files):
    """Fields, constructors and the abbreviations of proofs/ that have a dash, each with its new spelling."""
    found = {}
    for path in files:
        if path.suffix != ".antt":
            continue
        inside = False
        generated = path.name in ("Proof.antt", "Invariants.antt", "Answers.antt")
        for line in path.read_text().splitlines():
            if HEAD.match(line):
                inside = True
            elif not line.strip():
                inside = False
            part, short = PART.match(line), SHORT.match(line)
            words = part.group(1).split() if inside and part else [short.group(1)] if short and not generated else []
            for word in words:
                if "-" in word:
                    found[word] = word.replace("-", "_")
    return found


def main():
    check = "--check" in sys.argv[1:]
    code = [p for kind in ("specs/**/*.antt", "proofs/**/*.antt", "src/**/*.rt", "must-fail/*.edit") for p in sorted(ROOT.glob("crates/*/" + kind))]
    pages = [ROOT / "README.md", *sorted((ROOT / "docs").glob("*.md")), *sorted((ROOT / "crates").glob("*/README.md"))]
    undashed = undashed_words(code)
    words = {w for p in code for line in p.read_text().splitlines() for w in WORD.findall(code_of(line))}
    camel = {w for w in words if re.match("[a-z]", w) and any(CAMEL.match(part) for part in w.split("-"))}
    table = {w: respelled(w, undashed) for w in camel | set(undashed) | set(CHOSEN)}
    table = {old: new for old, new in table.items() if old != new}
    for old, new in sorted(table.items()):
        if new in words:
            print(f"together: {old} and {new}")
    for path in [*code, *pages]:
        text = path.read_text()
        turned = WORD.sub(lambda m: table.get(m[0], m[0]), text) if path not in pages else re.sub(
            "`[^`\n]+`", lambda q: WORD.sub(lambda m: table.get(m[0], m[0]), q[0]), text
        )
        if turned != text and not check:
            path.write_text(turned)
    print(f"respelled: {len(table)} words")


main()
