"""Checks what the crates offer: every source stands in a listed crate, every public function of a library has an
`ensures` and no `requires` but those that docs/EXCEPTIONS.md lists, its contract leans on no file Workers.antt of
specs/, whose words are for private functions, and no specification or proof assumes anything, or has a position of the
code, which goes stale.

    python3 tools/check_surface.py [ROOT]
"""

import re
import sys
from pathlib import PurePosixPath

from repository import (
    BACKTICKED,
    GHOST_USE,
    SEPARATORS,
    Findings,
    ensures_of,
    functions_of,
    line_at,
    list_files,
    names_of,
    only_section,
    proof_code,
    rattle_code,
    read,
    read_crates,
    report,
    root_of,
    tables_of,
    words_of,
)

EXCEPTIONS = "docs/EXCEPTIONS.md"
EXCEPTIONS_SECTION = "## Public functions with a requires"

# antt's holes are `?`, `?name` and the probe `{! .. !}`; `getElem?` is a name.
ASSUMED = re.compile(rf"(?<![^{SEPARATORS}])(?:axiom|postulate|\?[^{SEPARATORS}]*)(?![^{SEPARATORS}])|\{{!")

POSITION = re.compile(r"[\w/]+\.rt:\d[\d:]*")

# A file of specs/, as a `use` names it in its own crate and in others.
SPECIFICATION = re.compile(r"\bRattle\.(?P<crate>\w+)\.specs\.(?P<file>\w+)")
# Where the arguments stand in an operator's name.
PLACE = "◌"
WORKERS = "Workers.antt"


def is_source(path):
    return path.endswith((".rt", ".antt"))


def check_places(root, crates, files, findings):
    """Every source is in a listed crate, and the lists of crates.txt and of crates/ are the same."""
    for path in filter(is_source, files):
        parts = path.split("/")
        if parts[0] != "crates" or parts[1] not in crates or parts[2] not in ("src", "specs", "proofs"):
            findings.add(path, 1, "not below src/, specs/ or proofs/ of a listed crate")
    folders = {path.name for path in root.glob("crates/*") if path.is_dir()}
    for name in sorted(folders - set(crates)):
        findings.add(f"crates/{name}", 1, "not listed in crates.txt")
    for name, listed in crates.items():
        if name not in folders:
            findings.add("crates.txt", listed.line, f"{name} has no folder in crates/")


def public_functions(root, libraries, files):
    """The public functions of the libraries: of each its full name, its file and what was read of it."""
    for path in files:
        folder, _, below = path.partition("/src/")
        if folder not in libraries or not below.endswith(".rt"):
            continue
        modules = [] if below == "lib.rt" else list(PurePosixPath(below).with_suffix("").parts)
        for function in functions_of(rattle_code(read(root / path))):
            if function.public:
                owner = [function.owner] if function.owner else []
                names = [folder.split("/")[1], *modules, *function.modules, *owner, function.name]
                yield "::".join(names), path, function


def check_contracts(functions, exceptions, findings):
    """Every public function says what it ensures, and none but an exception asks anything of its caller."""
    for name, path, function in functions:
        if function.clauses is None:
            findings.add(path, function.line, f"{name}: where its clauses end and its body begins cannot be read")
            continue
        if "ensures" not in function.clauses:
            findings.add(path, function.line, f"{name} has no ensures")
        if "requires" in function.clauses and name not in exceptions:
            findings.add(path, function.line, f"{name} has a requires, and {EXCEPTIONS} does not list it")


def read_exceptions(root):
    """The functions that may have a `requires`, each with its line."""
    exceptions = {}
    for table in tables_of(only_section(read(root / EXCEPTIONS), EXCEPTIONS_SECTION)):
        for line, cells in table:
            exceptions.update((name, line) for name in BACKTICKED.findall(cells[0]))
    return exceptions


def check_exceptions(functions, exceptions, findings):
    """No exception outlives its ground."""
    clauses = {name: function.clauses for name, _, function in functions}
    for name, line in exceptions.items():
        if name not in clauses:
            findings.add(EXCEPTIONS, line, f"stale: {name} is no public function of a library")
        elif clauses[name] is not None and "requires" not in clauses[name]:
            findings.add(EXCEPTIONS, line, f"stale: {name} has no requires any more")


def proof_files(crates, files):
    """The specifications and proofs of the crates."""
    for path in files:
        parts = path.split("/")
        if path.endswith(".antt") and parts[0] == "crates" and parts[1] in crates:
            yield path


def check_assumptions(root, paths, findings):
    """Nothing in the crates is assumed or left open."""
    for path in paths:
        code = proof_code(read(root / path))
        for match in ASSUMED.finditer(code):
            findings.add(path, line_at(code, match.start()), f"assumed or left open: {match.group()}")


def check_positions(root, paths, findings):
    """No proof says where in the code something stands."""
    for path in paths:
        text = read(root / path)
        for match in POSITION.finditer(text):
            findings.add(path, line_at(text, match.start()), f"a position of the code: {match.group()}")


def specification_of(match):
    return f"crates/{match['crate']}/specs/{match['file']}.antt"


def workers_of(root, paths):
    """The files of specs/ that are Workers.antt, or use such a file, themselves or through others."""
    uses = {path: set(map(specification_of, SPECIFICATION.finditer(proof_code(read(root / path))))) for path in paths}
    workers = {path for path in paths if path.endswith(f"/specs/{WORKERS}")}
    while True:
        more = {path for path, used in uses.items() if "/specs/" in path and used & workers} - workers
        if not more:
            return workers
        workers |= more


def check_workers(root, functions, workers, findings):
    """No contract of a public function cites a definition of such a file."""
    for name, path, function in functions:
        code = rattle_code(read(root / path))
        cited = set(words_of(" ".join(ensures_of(code, function)))) - function.parameters
        for match in GHOST_USE.finditer(code):
            used = SPECIFICATION.match(match["module"])
            if not used or specification_of(used) not in workers:
                continue
            for word in names_of(match["names"]):
                if cited.issuperset(filter(None, word.split(PLACE))):
                    wrong = f"{name} cites {word} of {specification_of(used)}, which is or uses {WORKERS}"
                    findings.add(path, function.line, wrong)


def check_uses(root, libraries, files, workers, findings):
    """Where the code uses such a file it lists the names."""
    for path in files:
        if path.partition("/src/")[0] in libraries and path.endswith(".rt"):
            code = rattle_code(read(root / path))
            listed = {match.start("module") for match in GHOST_USE.finditer(code)}
            for match in SPECIFICATION.finditer(code):
                if specification_of(match) in workers and match.start() not in listed:
                    findings.add(path, line_at(code, match.start()), f"{match.group()} is used without a list of names")


def main(arguments):
    root = root_of(arguments)
    findings = Findings()
    crates = read_crates(root, findings)
    files = list_files(root)
    libraries = {f"crates/{name}" for name in crates if (root / "crates" / name / "src" / "lib.rt").is_file()}
    functions = list(public_functions(root, libraries, files))
    exceptions = read_exceptions(root)
    check_places(root, crates, files, findings)
    check_contracts(functions, exceptions, findings)
    check_exceptions(functions, exceptions, findings)
    proofs = list(proof_files(crates, files))
    check_assumptions(root, proofs, findings)
    check_positions(root, proofs, findings)
    workers = workers_of(root, proofs)
    check_workers(root, functions, workers, findings)
    check_uses(root, libraries, files, workers, findings)
    return report(f"surface: {len(libraries)} libraries, {len(functions)} public functions", findings)


if __name__ == "__main__":
    sys.exit(main(sys.argv[1:]))
