"""Checks what the papers say against the tree: they are all there, every reference of docs/CLAIMS.md exists, every
must-fail edit stands under a claim, docs/REFUSALS.md is the refusals of the code, the constants of the C header are
those of the code and that table, and no file names a machine's folder.

    python3 tools/check_papers.py [ROOT]
"""

import re
import sys

from make_header import HEADER, check_header
from repository import (
    BACKTICKED,
    Findings,
    closing_brace,
    functions_of,
    is_row,
    list_files,
    proof_code,
    rattle_code,
    read,
    report,
    root_of,
    tables_of,
)

CLAIMS = "docs/CLAIMS.md"
REFUSALS = "docs/REFUSALS.md"
PAPERS = (
    "README.md",
    "NOTICE",
    CLAIMS,
    "docs/DECISIONS.md",
    "docs/DIFFERENCES.md",
    "docs/EXCEPTIONS.md",
    REFUSALS,
    "docs/PROVING.md",
)
REFUSAL_CODE = "crates/refusal/src/lib.rt"

PROOF_REFERENCE = re.compile(r"([^/:\s]+/(?:specs|proofs)/[^:\s]+\.antt):(\S+)")
CODE_REFERENCE = re.compile(r"([^/:\s]+/src/[^:\s]+\.rt):(?:(\w+)::)?(\w+)")
EDIT_REFERENCE = re.compile(r"[^/:\s]+/must-fail/[^/:\s]+\.edit")
PATH_REFERENCE = re.compile(r"[^:\s]*/[^:\s]*")

# The words that may stand before a name that antt declares, and those that show that a line declares none.
MARKS = {"unfoldable", "abbrev", "pub", "data", "record"}
NO_DECLARATION = {"let", "in", "λ", "=", "→", "mod", "use", "module", "open"}
GROUP = re.compile(r"\([^(){}]*\)|\{[^(){}]*\}")

VARIANT = re.compile(r"(\w+)\s*(?:\{([^{}]*)\}|\(([^()]*)\))?[^,]*(?:,|$)")
FIELD = re.compile(r"(\w+)\s*:(?!:)")

# Absolute paths only: a folder of one of these names further down, or after a variable, is no machine's.
MACHINE_FOLDER = re.compile(r"(?<![\w.~})\]*-])/(?:work|farm|tmp|opt|root|home)/[^\s`'\")]*")


def check_papers_there(root, findings):
    for path in PAPERS:
        if not read(root / path).strip():
            findings.add(path, 1, "empty" if (root / path).exists() else "missing")


def declared_names(code):
    """The names that an antt file declares, from its code without comments: items, constructors and fields."""
    groups = 1
    while groups:
        code, groups = GROUP.subn(" ", code)
    names = set()
    for words in map(str.split, code.splitlines()):
        heads = words[: words.index(":")] if ":" in words else words
        plain = [word for word in heads if word not in MARKS]
        if NO_DECLARATION & set(heads):
            continue
        if ":" in words:
            names.update(plain)
        elif len(plain) < len(heads):
            # A marked item whose type begins on the next line.
            names.update(plain[:1])
    return names


def has_item(code, owner, name):
    """Whether a Rattle file has the function, constant or type; with an owner, the function in an `impl` of it."""
    if owner:
        return any((function.owner, function.name) == (owner, name) for function in functions_of(code))
    return re.search(rf"\b(?:fn|const|struct|enum|trait)\s+{name}\b", code) is not None


def fault_of(root, reference):
    """What is wrong with a reference of the claims, or None."""
    if reference.startswith("/") or ".." in reference.split("/"):
        return f"not a reference: {reference}"
    proof = PROOF_REFERENCE.fullmatch(reference)
    code = CODE_REFERENCE.fullmatch(reference)
    if proof or code:
        path, *names = (proof or code).groups()
        file = root / "crates" / path
        if not file.is_file():
            return f"no file crates/{path}"
        if proof:
            there = names[0] in declared_names(proof_code(read(file)))
        else:
            there = has_item(rattle_code(read(file)), *names)
        return None if there else f"crates/{path} does not declare {'::'.join(filter(None, names))}"
    if EDIT_REFERENCE.fullmatch(reference):
        return None if (root / "crates" / reference).is_file() else f"no file crates/{reference}"
    if PATH_REFERENCE.fullmatch(reference):
        return None if (root / reference).exists() else f"no file {reference}"
    return None if (root / reference).is_file() else f"not a reference: {reference}"


def check_claims(root, findings):
    """Every reference in a table of the claims exists. Returns the references."""
    references = []
    for number, line in enumerate(read(root / CLAIMS).splitlines(), 1):
        if not is_row(line):
            continue
        for reference in BACKTICKED.findall(line):
            references.append(reference)
            fault = fault_of(root, reference)
            if fault:
                findings.add(CLAIMS, number, fault)
    return references


def check_edits(files, references, findings):
    """Every must-fail edit is named by a claim. Returns the edits."""
    edits = [path for path in files if re.fullmatch(r"crates/[^/]+/must-fail/[^/]+\.edit", path)]
    for path in edits:
        if path not in references and path[len("crates/") :] not in references:
            findings.add(path, 1, f"no row of {CLAIMS} names this edit")
    return edits


def variants_of(code):
    """The variants of `enum Refusal` with their fields, in order; None where there is no such enum."""
    enum = re.search(r"\benum\s+Refusal\s*\{", code)
    end = enum and closing_brace(code, enum.end() - 1)
    if not end:
        return None
    variants = []
    for name, named, unnamed in VARIANT.findall(code[enum.end() : end].strip()):
        places = [str(place) for place, part in enumerate(unnamed.split(",")) if part.strip()]
        variants.append((name, FIELD.findall(named) or places))
    return variants


def check_refusals(root, findings):
    """The table of refusals has the rows 1 to N, which are the variants of the code. Returns N."""
    text = read(root / REFUSALS)
    rows = next(iter(tables_of(text)), [])
    if not rows:
        if text.strip():
            findings.add(REFUSALS, 1, "no table of refusals")
        return 0
    variants = None
    if (root / REFUSAL_CODE).is_file():
        variants = variants_of(rattle_code(read(root / REFUSAL_CODE)))
        if variants is None:
            findings.add(REFUSAL_CODE, 1, "no enum Refusal")
    else:
        print(f"note: {REFUSAL_CODE} is not there yet: the refusals were not compared with it")
    for place, (line, cells) in enumerate(rows):
        number, name, carries = (cells + ["", "", ""])[:3]
        if number != str(place + 1):
            findings.add(REFUSALS, line, f"row {place + 1} has the number {number}")
        if not re.fullmatch(r"`\w+`", name):
            findings.add(REFUSALS, line, f"row {place + 1} has no name in backticks")
        elif variants is not None:
            check_variant(line, name.strip("`"), carries, variants[place : place + 1], findings)
    for place, (name, _) in enumerate((variants or [])[len(rows) :], len(rows) + 1):
        findings.add(REFUSALS, rows[-1][0], f"no row {place} for {name}")
    return len(rows)


def check_variant(line, name, carries, variant, findings):
    """A row is the variant of its number: its name, and what it carries."""
    if not variant:
        findings.add(REFUSALS, line, f"{name} is past the last refusal of the code")
        return
    expected, fields = variant[0]
    if name != expected:
        findings.add(REFUSALS, line, f"{name} stands where the code has {expected}")
    elif BACKTICKED.findall(carries) != fields or not fields and carries != "nothing":
        findings.add(REFUSALS, line, f"{name} carries {', '.join(fields) or 'nothing'}, and the row says otherwise")


def check_machine_folders(root, files, findings):
    """No text names a folder of some machine; NOTICE alone may, for it quotes others."""
    for path in files:
        content = (root / path).read_bytes()
        if path == "NOTICE" or b"\0" in content:
            continue
        for number, line in enumerate(content.decode("utf-8", errors="replace").splitlines(), 1):
            for folder in MACHINE_FOLDER.findall(line):
                findings.add(path, number, f"names a machine's folder: {folder}")


def main(arguments):
    root = root_of(arguments)
    findings = Findings()
    files = list_files(root)
    check_papers_there(root, findings)
    references = check_claims(root, findings)
    edits = check_edits(files, references, findings)
    refusals = check_refusals(root, findings)
    constants = check_header(root, findings) if (root / HEADER).exists() else 0
    check_machine_folders(root, files, findings)
    counts = f"{len(references)} references, {len(edits)} must-fail edits, {refusals} refusals, {constants} constants"
    return report(f"papers: {len(PAPERS)} papers, {counts}", findings)


if __name__ == "__main__":
    sys.exit(main(sys.argv[1:]))
