"""Writes the block of constants in bindings/c/turgamysk.h: refusals, what two of them carry, kinds, classes, sides and
limits.

    python3 tools/make_header.py [ROOT]            # writes the block anew
    python3 tools/make_header.py --check [ROOT]    # writes nothing; says whether it is the same

The version of the interface stands at its entry, outside the block; it is only checked.

No number stands here but the 0 of what is accepted: each is read from the code's constants and types, where there is
none from the definitions of specs/, and the refusals from docs/REFUSALS.md, whose rows check_papers.py holds to the
code.
"""

import re
import sys
import textwrap
from typing import NamedTuple

from repository import BACKTICKED, Findings, closing_brace, rattle_code, read, report, root_of, tables_of

HEADER = "bindings/c/turgamysk.h"
REFUSALS = "docs/REFUSALS.md"
BEGIN = "/* ---- constants (written by tools/make_header.py: from here) */"
END = "/* ---- constants (to here) */"
WIDTH = 120

VERSION = re.compile(r"^#define TURGAMYSK_VERSION (\d+)$", re.MULTILINE)
CONSTANT = re.compile(r"\bconst\s+(?P<name>\w+)\s*:\s*(?P<type>\w+)\s*=\s*(?P<value>[\w:]+)\s*;")
NUMBER = re.compile(r"\d[\d_]*")
# A choice within a rule of the table, as in `1 name over 63, 2 resource over 512`: its number and its words.
CHOICE = re.compile(r"(?:^|, |: )(\d+) ([a-z]+(?: [a-z]+)*)")


class Wrong(Exception):
    """What a constant is read from is not there, or there more than once; the file and why."""


class Constant(NamedTuple):
    """A constant of a crate, by its owner where it stands in an `impl`."""

    crate: str
    owner: str
    name: str
    comment: str


class Said(NamedTuple):
    """A number in a file: the one group of a pattern, which the file has once."""

    path: str
    pattern: str
    comment: str


LIMITS = {
    "HASH_SIZE": Said("crates/primitives/src/lib.rt", r"struct NameHash\(pub \[u8; (\d+)\]\)", "The bytes of a hash."),
    "MAX_NAME_SIZE": Constant("names", "", "MAX_NAME_SIZE", "The most bytes of a name."),
    "MAX_RESOURCE_SIZE": Constant("name_state", "NameState", "MAX_RESOURCE_SIZE", "The most bytes of a resource."),
    "MAX_RECORD_SIZE": Constant("name_state", "NameState", "MAX_SIZE", "The most bytes of a name state's record."),
    "MAX_SAFE_INTEGER": Constant(
        "name_state", "NameState", "MAX_SAFE_INTEGER", "The largest amount in a record, 2^53 - 1."
    ),
    "MAX_ITEMS": Constant("covenants", "Covenant", "MAX_ITEMS", "The most items of a covenant."),
    "MAX_ITEM_SIZE": Constant("covenants", "Covenant", "MAX_ITEM_SIZE", "The most bytes of an item."),
    "MAX_COVENANT_SIZE": Constant("covenants", "Covenant", "MAX_ENCODED_SIZE", "The most bytes of a covenant."),
    "DIRECTORY_SIZE": Said(
        "crates/covenants/src/lib.rt",
        r"pub starts: \[usize; (\d+)\]",
        "The numbers at `starts`, and at `lens`, of a directory.",
    ),
    "RUN_ALLOWANCE": Constant(
        "runs", "Run", "ALLOWANCE", "The bytes that a run allows each covenant, where no limit is given."
    ),
    "OUTPOINT_SIZE": Said(
        "crates/primitives/src/lib.rt", r"pub fn encode\(self\) -> \[u8; (\d+)\]", "The bytes of an encoded outpoint."
    ),
    "MAX_SHEET_SIZE": Constant("sheets", "", "LONGEST", "The most bytes of a sheet."),
    "MAX_REPORT_SHEET_SIZE": Constant(
        "reports", "", "LONGEST", "The most bytes of a sheet of which the link report tells."
    ),
    "MAX_LINK_LINE_SIZE": Said(
        "crates/reports/specs/Theorems.antt",
        r"\nLinkLineFits = .* ≤ (\d+)\n",
        "The most bytes of a line of the link report.",
    ),
    "MAX_NAME_LINE_SIZE": Said(
        "crates/reports/specs/Theorems.antt",
        r"\nNameLineFits = .* ≤ (\d+)\n",
        "The most bytes of a line of the name report.",
    ),
}
SIDES = {
    "SIDE_TRANSACTION": Said("crates/sheets/specs/Sheet.antt", r"\ntransaction_at s = sheet_at (\d+) s ", ""),
    "SIDE_COINS": Said("crates/sheets/specs/Sheet.antt", r"\ncoins_at s = sheet_at (\d+) s ", ""),
}
AMOUNTS = {
    "OVERFLOW": Said(
        "crates/capi/specs/Amounts.antt",
        r"\namount_flat \(Err ArithmeticError\.Overflow\) = record \{ outcome = (\d+);",
        "",
    ),
    "UNDERFLOW": Said(
        "crates/capi/specs/Amounts.antt",
        r"\namount_flat \(Err ArithmeticError\.Underflow\) = record \{ outcome = (\d+);",
        "",
    ),
}
KINDS = "crates/covenants/src/kind.rt"
CLASSES = "crates/name_state/specs/Paper.antt"
CLASS = re.compile(r"^class_number Class\.(\w+) = (\d+)$", re.MULTILINE)
# The refusals that carry a choice of their rule: what the choice is called in the header, and the crate whose `Reason`
# it is.
CHOICES = {"InvalidNameState": ("REASON", "name_state_codec"), "MalformedCovenant": ("FIELD", None)}
REASON = re.compile(r"\benum Reason \{([^}]*)\}")
VARIANT = re.compile(r"\b(\w+) = (\d+),")


def sources_of(root, crate):
    """The Rattle files of a crate: of each the path and the code without comments."""
    for path in sorted((root / "crates" / crate / "src").rglob("*.rt")):
        yield path.relative_to(root).as_posix(), rattle_code(read(path))


def block_of(code, owner):
    """The part of a file's code in which a constant of this owner stands: in the `impl`s of it, or outside of all."""
    inside = []
    for impl in re.finditer(r"\bimpl\s+(\w+)\s*\{", code):
        end = closing_brace(code, impl.end() - 1) or len(code)
        inside.append((impl[1], impl.end(), end))
    if owner:
        return "\n".join(code[start:end] for name, start, end in inside if name == owner)
    for _, start, end in inside:
        code = code[:start] + " " * (end - start) + code[end:]
    return code


def constant(root, crate, owner, name):
    """The number of a constant, which may be said by another one of the same or another crate."""
    found = []
    for path, code in sources_of(root, crate):
        for match in CONSTANT.finditer(block_of(code, owner)):
            if match["name"] == name:
                found.append((path, code, match["value"]))
    if len(found) != 1:
        word = f"{owner}::{name}" if owner else name
        raise Wrong(f"crates/{crate}/src", f"{len(found)} constants {word}")
    path, code, value = found[0]
    if NUMBER.fullmatch(value):
        return int(value)
    *place, name = value.split("::")
    if len(place) != 1:
        raise Wrong(path, f"{name} is said by {value}, which is not followed")
    of_list = rf"\{{[^{{}};]*\b{place[0]}\b[^{{}};]*\}}"
    used = re.search(rf"\buse\s+(?!crate\b)(\w+)::(?:\w+::)*(?:{place[0]}|{of_list})\s*;", code)
    if used:
        return constant(root, used[1], place[0], name)
    if (root / "crates" / place[0]).is_dir():
        return constant(root, place[0], "", name)
    return constant(root, crate, place[0], name)


def number_of(root, source):
    if isinstance(source, Constant):
        return constant(root, source.crate, source.owner, source.name)
    found = re.findall(source.pattern, read(root / source.path))
    if len(found) != 1:
        raise Wrong(source.path, f"{len(found)} times {source.pattern}")
    return int(found[0])


def constants_of(sources, type_name):
    """The constants of a type in some sources, by their names."""
    return {
        match["name"]: int(match["value"])
        for _, code in sources
        for match in CONSTANT.finditer(code)
        if match["type"] == type_name and NUMBER.fullmatch(match["value"])
    }


def in_capitals(name):
    """`UnexpectedEnd` or `spent name` as UNEXPECTED_END and SPENT_NAME."""
    return re.sub(r"(?<=[a-z])(?=[A-Z])| ", "_", name).upper()


def refusals_of(root):
    """The rows of the table: of each the number, the name, what it carries, and the rule."""
    rows = next(iter(tables_of(read(root / REFUSALS))), [])
    if not rows:
        raise Wrong(REFUSALS, "no table of refusals")
    for _, (number, name, carries, rule, *_) in rows:
        yield int(number), name.strip("`"), BACKTICKED.findall(carries), rule


def reasons_of(root, crate):
    """The numbers of a crate's `Reason`, by their names."""
    return {
        in_capitals(name): int(number)
        for _, code in sources_of(root, crate)
        for variants in REASON.findall(code)
        for name, number in VARIANT.findall(variants)
    }


def choices_of(root, crate, rule):
    """The choices that a rule has, by their names; where they are a crate's `Reason` too, these are the same."""
    choices = {in_capitals(words): int(number) for number, words in CHOICE.findall(rule)}
    known = reasons_of(root, crate) if crate else choices
    for name, number in choices.items():
        if known.get(name) != number:
            raise Wrong(f"crates/{crate}/src", f"{name} is {known.get(name)}, and {number} in {REFUSALS}")
    return choices


def commented(text):
    """A text as a comment of C, within the width. A number is not parted from what it counts, nor from its sign."""
    if len(text) <= WIDTH - len("/*  */"):
        return [f"/* {text} */"]
    bound = re.sub(r"(?<=\d) (?=[a-z-])|(?<=-) (?=\d)", "\u00a0", text)
    lines = textwrap.wrap(bound, WIDTH - len(" * "), break_on_hyphens=False)
    return ["/*", *(f" * {line}".replace("\u00a0", " ") for line in lines), " */"]


def defined(name, number):
    return f"#define TURGAMYSK_{name} {number}"


def refusal_lines(root):
    """The refusals, each after its rule; then what some of them carry by number."""
    told = "What `number` says: nothing was refused; or the refusal's number in docs/REFUSALS.md. `first`, `second` and `third`"
    lines = [*commented(f"{told} are what it carries, in the order that is told here."), defined("ACCEPTED", 0)]
    chosen = []
    for number, name, carries, rule in refusals_of(root):
        carried = ", ".join(f"`{word}`" for word in carries)
        lines += ["", *commented(f"Carries {carried}. {rule}." if carried else f"{rule}.")]
        lines.append(defined(f"REFUSAL_{in_capitals(name)}", number))
        if name in CHOICES:
            prefix, crate = CHOICES[name]
            chosen += ["", *commented(f"The `{carries[-1]}` that {number} carries.")]
            for word, choice in choices_of(root, crate, rule).items():
                chosen.append(defined(f"{prefix}_{word}", choice))
    return lines + chosen


def block(root):
    """The lines of the block."""
    lines = ["", *refusal_lines(root), "", *commented("The kinds of covenants; every other byte is an unknown one.")]
    kinds = constants_of([(KINDS, rattle_code(read(root / KINDS)))], "u8")
    lines += [defined(f"KIND_{name}", number) for name, number in kinds.items()]
    lines += ["", *commented("The classes of name states.")]
    lines += [defined(f"CLASS_{in_capitals(name)}", number) for name, number in CLASS.findall(read(root / CLASSES))]
    lines += ["", *commented("The sides: of a transaction's sheet, and of its coins'.")]
    lines += [defined(name, number_of(root, source)) for name, source in SIDES.items()]
    lines += ["", *commented("Why two amounts have no sum, or no difference.")]
    lines += [defined(name, number_of(root, source)) for name, source in AMOUNTS.items()]
    for name, source in LIMITS.items():
        lines += ["", *commented(source.comment), defined(name, number_of(root, source))]
    return lines + [""]


def check_version(root, text, findings):
    """The header's version is the one that the archive says."""
    said = VERSION.findall(text)
    expected = constant(root, "capi", "", "VERSION")
    if said != [str(expected)]:
        findings.add(
            HEADER, 1, f"TURGAMYSK_VERSION is {' and '.join(said) or 'not there'}, and {expected} in crates/capi"
        )


def parts_of(text):
    """The header before the block, the block's lines and the header after it; nothing where the marks are not there
    once each."""
    lines = text.splitlines()
    if lines.count(BEGIN) != 1 or lines.count(END) != 1 or lines.index(END) < lines.index(BEGIN):
        return None
    begin, end = lines.index(BEGIN), lines.index(END)
    return lines[: begin + 1], lines[begin + 1 : end], lines[end:]


def check_header(root, findings):
    """The header's constants are those of the code, its definitions and the table. Returns how many there are."""
    text = read(root / HEADER)
    parts = parts_of(text)
    if parts is None:
        findings.add(HEADER, 1, "no block of constants between its marks")
        return 0
    try:
        check_version(root, text, findings)
        made = block(root)
    except Wrong as wrong:
        findings.add(wrong.args[0], 1, wrong.args[1])
        return 0
    before, there, _ = parts
    for number, (line, expected) in enumerate(zip(there, made), len(before) + 1):
        if line != expected:
            findings.add(HEADER, number, f"{line} stands where tools/make_header.py writes {expected}")
            break
    else:
        if len(there) != len(made):
            findings.add(HEADER, len(before) + 1, f"{len(there)} lines where tools/make_header.py writes {len(made)}")
    return sum(line.startswith("#define") for line in made)


def write_header(root):
    before, _, after = parts_of(read(root / HEADER)) or sys.exit(f"{HEADER}: no block of constants between its marks")
    (root / HEADER).write_text("\n".join([*before, *block(root), *after, ""]), encoding="utf-8")


def main(words):
    check = words[:1] == ["--check"]
    root = root_of(words[1:] if check else words)
    if not check:
        write_header(root)
        return 0
    findings = Findings()
    count = check_header(root, findings)
    return report(f"header: {count} constants", findings)


if __name__ == "__main__":
    sys.exit(main(sys.argv[1:]))
