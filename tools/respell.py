#!/usr/bin/env python3
"""Brings the repository's own definitions to the spelling of today's Rattle: what was nameHash is name_hash.

usage: python3 tools/respell.py [TOP]

Run once, after the kit's port.py, at the top (or with TOP). Types, modules and theorems keep their capitals, functions
of src/ keep their spelling, and a law that joins two names keeps its dash; a definition of specs/ has none. Turned are
the definitions and laws of specs/ and proofs/, the clauses and comments of src/, the edits of must-fail/, and what the
papers name in backticks. A law that would have its definition's name gets `_lem`. Where two names would fall together
otherwise, it says so and turns nothing.
"""

import pathlib
import re
import sys

WORD = re.compile(r"[A-Za-z0-9_'₀-₉]+(?:-[A-Za-z0-9_'₀-₉]+)*")
OWN = re.compile(r"[a-z][a-z0-9]*[A-Z][A-Za-z0-9]*")
DEFINED = re.compile(r"^\s*(?:abbrev |unfoldable |pub |data |record |ruleset )*([A-Za-z0-9_'₀-₉#-]+) :", re.MULTILINE)
BACKTICKS = re.compile(r"`[^`\n]+`")


def snake(word):
    return re.sub(r"([A-Z])", lambda found: "_" + found.group(1).lower(), word)


def turned(text, names):
    def turned_word(found):
        word = found.group(0)
        return names.get(word) or "-".join(names.get(part, part) for part in word.split("-"))

    return WORD.sub(turned_word, text)


def logic_files(top):
    for crate in sorted((top / "crates").iterdir()):
        for folder in ("specs", "proofs"):
            yield from sorted((crate / folder).rglob("*.antt"))


def declared_names(files):
    return {name for file in files for name in DEFINED.findall(file.read_text())}


def own_names(declared):
    """The names in camel case that the repository itself declares, and those that stand between dashes in one."""
    words = {word for name in declared for word in name.split("-")}
    return {word: snake(word) for word in words if OWN.fullmatch(word)}


def dashed_definitions(declared):
    return {name: name.replace("-", "_") for name in declared if "-" in name and name == name.lower()}


def laws_of_a_definition(declared, names):
    """Laws that already have the new name of a definition."""
    turned_to = {new for old, new in names.items() if old in declared}
    return turned_to & declared


def main(top):
    files = list(logic_files(top))
    declared = declared_names(files)
    names = own_names(declared)
    names |= dashed_definitions(declared_names(file for file in files if file.parent.name == "specs"))
    if len(set(names.values())) != len(names):
        sys.exit("two names would be one")
    names |= {law: law + "_lem" for law in laws_of_a_definition(declared, names)}
    for file in files + sorted(top.glob("crates/*/src/*.rt")) + sorted(top.glob("crates/*/must-fail/*.edit")):
        text = file.read_text()
        new = turned(text, names)
        if new != text:
            file.write_text(new)
    for page in sorted(top.glob("docs/**/*.md")) + sorted(top.glob("*.md")) + sorted(top.glob("*/README.md")):
        text = page.read_text()
        new = BACKTICKS.sub(lambda found: turned(found.group(0), names), text)
        if new != text:
            page.write_text(new)
    print(f"{len(names)} names")


if __name__ == "__main__":
    main(pathlib.Path(sys.argv[1] if len(sys.argv) > 1 else "."))
