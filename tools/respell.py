#!/usr/bin/env python3
"""Brings the repository's own definitions and lemmas to the spelling of today's Rattle: respell.txt has a line 'OLD NEW' for each name.

usage: python3 tools/respell.py      at the top of the repository, once, after the toolchain's own port.py

Definitions, fields, constructors and lemmas of specs/ and proofs/ are in snake case; a dash joins two names, as a lemma on two definitions.
Where two names would fall together, a lemma ends in _lem and a field of a record of laws in _law. Names of src/, goals' names in the proof of a
function, strings, inputs and outputs are left as they are. In the documents only what stands between backticks is respelled.
"""

import pathlib
import re

ROOT = pathlib.Path(__file__).resolve().parent.parent
NAMES = dict(line.split() for line in (ROOT / "tools" / "respell.txt").read_text().splitlines())
TOKEN = re.compile(r"[^\s(){}\[\],;.:\"`]+")
QUOTED = re.compile(r"`[^`\n]+`")
PROOF = ("Proof.antt", "Invariants.antt", "Answers.antt")


def functions():
    """The names of functions of src/, as an older proof of a function spells the calls that it names."""
    found = set()
    for path in ROOT.glob("crates/*/src/**/*.rt"):
        found |= {name.replace("_", "-") for name in re.findall(r"\bfn (\w+)", path.read_text())}
    return found


def respelled(text, leave=lambda before: False):
    def new(m):
        word = m.group(0)
        return word if word not in NAMES or leave(m) else NAMES[word]

    return TOKEN.sub(new, text)


def proof_of_function(text, calls):
    """A step of the proof, after a dot, may have the name of a call: it is no name of ours."""

    def line(row):
        if row.startswith("use "):
            return respelled(row)
        return respelled(row, lambda m: m.start() > 0 and m.string[m.start() - 1] == "." and m.group(0) in calls)

    return "\n".join(line(row) for row in text.split("\n"))


def main():
    calls = functions()
    for path in sorted(ROOT.glob("crates/**/*")):
        if not path.is_file() or path.suffix not in (".antt", ".rt", ".edit") or "out" in path.parts:
            continue
        text = path.read_text()
        new = proof_of_function(text, calls) if path.name in PROOF else respelled(text)
        if new != text:
            path.write_text(new)
    for path in [ROOT / "README.md", *sorted((ROOT / "docs").glob("*.md")), *sorted((ROOT / "docs" / "landings").glob("*.md"))]:
        text = path.read_text()
        new = QUOTED.sub(lambda m: respelled(m.group(0)), text)
        if new != text:
            path.write_text(new)


main()
