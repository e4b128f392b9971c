"""Checks that every public function of a library has its theorem that two results which meet its contract coincide:
NAME-one in the crate's proofs/One.antt, hyphens and underscores alike, with the type or else the module in front where
a crate has two of a name. A function that docs/EXCEPTIONS.md lists as left open needs none, and may have none. A static
library says the contracts of a crate below it again: each of its functions is held to the theorem of the function of
the same path there.

The theorem supposes the contract of two results. So each definition of specs/ and each number that the `ensures` cite
must stand twice in the theorem's type, no other definition may stand there, and it has twice the equations of the
`ensures` and at most as many again for what follows. An abbreviation of One.antt counts as what it stands for. So a
contract can't lose a clause while its theorem stays, nor a theorem drift away.

    python3 tools/check_one.py [ROOT]
"""

import re
import sys
from collections import Counter

from check_surface import EXCEPTIONS, public_functions
from repository import (
    BACKTICKED,
    GHOST_USE,
    SEPARATORS,
    Findings,
    ensures_of,
    list_files,
    names_of,
    only_section,
    proof_code,
    rattle_code,
    read,
    read_crates,
    report,
    root_of,
    tables_of,
    words_of,
)

LEFT_OPEN_SECTION = "## Results that a contract leaves open"
THEOREM = re.compile(r"^ *pub (?P<name>[^\s:]+[-_]one) :", re.MULTILINE)
ABBREVIATION = re.compile(r"^ *abbrev (?P<name>[^\s:]+) :", re.MULTILINE)
USE = re.compile(r"^use (?P<module>[^\s{]*)\.\{(?P<names>[^}]*)\}", re.MULTILINE)
USE_AS = re.compile(r"^(?:ghost )?use (?P<module>[^\s{]*) as (?P<alias>[^\s;]+)", re.MULTILINE)
# A file of a crate's specs/; what stands below `declared` are the types of the code.
SPECIFICATION = re.compile(r"Rattle\.(?P<crate>\w+)\.specs\.(?!declared\.)")


def hyphened(name):
    return name.replace("_", "-")


def theorem_of(name, shared):
    """The theorem's name for a function's full name, `crate::module::Type::function`."""
    crate, *owners, function = name.split("::")
    parts = [owners[-1].lower(), function] if shared and owners else [function]
    return hyphened("-".join(parts)) + "-one"


def home_of(name, crates, names):
    """The full name of the function whose theorem stands for a function: its own, or that of the function which a
    static library's stands for."""
    crate, _, path = name.partition("::")
    below = crates[crate].below if crates[crate].is_static else ()
    return next((f"{other}::{path}" for other in below if f"{other}::{path}" in names), name)


def parts_of(code, start):
    """The text of a declaration whose name ends at a place, up to the next line that is no further in."""
    lines = code[start:].splitlines()
    margin = len(code[:start].rsplit("\n", 1)[-1]) - len(code[:start].rsplit("\n", 1)[-1].lstrip())
    kept = lines[:1]
    for line in lines[1:]:
        if line.strip() and len(line) - len(line.lstrip()) <= margin:
            break
        kept.append(line)
    return "\n".join(kept)


def theorems_of(code):
    """What the types of a file's theorems cite, by their names with hyphens; abbreviations of the file count as what
    they stand for. Of two theorems that differ only in that the second counts for nothing."""
    meant, modules = {}, modules_of(code)
    for match in ABBREVIATION.finditer(code):
        name = match["name"]
        body = re.search(rf"^ *{re.escape(name)} [^\n=]*=", code[match.end() :], re.MULTILINE)
        meant[name] = words_of(parts_of(code, match.end() + body.end()), modules) if body else Counter()
    theorems = {}
    for match in THEOREM.finditer(code):
        cited = words_of(parts_of(code, match.end()), modules)
        for name, within in meant.items():
            for word, times in within.items():
                cited[word] += times * cited[name]
        theorems.setdefault(hyphened(match["name"]), +cited)
    return theorems


def modules_of(code):
    """The names under which a file brings in whole modules."""
    return {match["alias"] for match in USE_AS.finditer(code)}


def brought_by(code, use, crates):
    """The definitions of the crates' specs/ that a file brings in, or cites behind a module's name; types that the code
    declares are no definitions."""

    def is_specification(match):
        module = SPECIFICATION.match(match["module"] + ".")
        return module and module["crate"] in crates

    brought = set()
    for match in filter(is_specification, use.finditer(code)):
        brought.update(names_of(match["names"]))
    for match in filter(is_specification, USE_AS.finditer(code)):
        brought.update(re.findall(rf"(?<![^{SEPARATORS}])(?<!\.){re.escape(match['alias'])}\.([^{SEPARATORS}]+)", code))
    return brought


def parted(text, one, function, cited, crates):
    """In what a function's contract and its theorem, which cites so much, do not speak of the same."""
    code = rattle_code(text)
    held = words_of(" ".join(ensures_of(code, function)), modules_of(code))
    contract = (held.keys() & brought_by(code, GHOST_USE, crates)) - function.parameters
    theorem = cited.keys() & brought_by(proof_code(one), USE, crates)
    numbers = {word for word in held if word.isdigit()}
    wrong = [f"the theorem lacks {word}" for word in sorted(contract | numbers) if cited[word] < 2]
    wrong += [f"the contract lacks {word}" for word in sorted(theorem - contract)]
    if not 2 * held["≡"] < cited["≡"] <= 3 * held["≡"]:
        wrong.append(f"{held['≡']} equations in the contract, {cited['≡']} in the theorem")
    return wrong


def main(arguments):
    root = root_of(arguments)
    findings = Findings()
    crates = read_crates(root, findings)
    libraries = {f"crates/{name}" for name in crates if (root / "crates" / name / "src" / "lib.rt").is_file()}
    functions = list(public_functions(root, libraries, list_files(root)))
    theorems = {}
    for library in sorted(libraries):
        file = root / library / "proofs" / "One.antt"
        theorems[library.split("/")[1]] = theorems_of(proof_code(read(file))) if file.is_file() else {}
    left_open = {
        name
        for table in tables_of(only_section(read(root / EXCEPTIONS), LEFT_OPEN_SECTION))
        for _, cells in table
        for name in BACKTICKED.findall(cells[0])
    }
    times = Counter((name.split("::")[0], function.name) for name, _, function in functions)
    names = {name for name, _, _ in functions}
    for name, path, function in functions:
        home = home_of(name, crates, names)
        crate = home.split("::")[0]
        theorem = theorem_of(home, times[crate, function.name] > 1)
        stands = theorem in theorems[crate]
        if not stands and name not in left_open:
            findings.add(path, function.line, f"{name} has no theorem {theorem} in crates/{crate}/proofs/One.antt")
        if stands and name in left_open:
            findings.add(EXCEPTIONS, 1, f"stale: {name} has its theorem {theorem}")
        elif stands:
            one = read(root / "crates" / crate / "proofs" / "One.antt")
            for wrong in parted(read(root / path), one, function, theorems[crate][theorem], crates):
                findings.add(path, function.line, f"{name} and {theorem}: {wrong}")
    for name in sorted(left_open - names):
        findings.add(EXCEPTIONS, 1, f"stale: {name} is no public function of a library")
    return report(f"results: {len(functions)} public functions", findings)


if __name__ == "__main__":
    sys.exit(main(sys.argv[1:]))
