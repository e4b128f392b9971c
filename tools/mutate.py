"""Asks the prover about wrong programs: changes one comparison, operator, constant or answer of a crate's code at a
time, in a copy of the repository, and runs `rt check` on it. Run by hand, not by the gate: a crate takes minutes.

    python3 tools/mutate.py [--of-one N] [--function NAME].. [--list] CRATE [CRATE ..]

With --of-one at most N mutants of a function or constant are judged, spread evenly over it: straight-line code has
hundreds of a kind. With --function only those of the functions and constants of that name are, as after a change of
them.

A function's proof sees no other function's code, only its contract. So one run of the prover judges several mutants at
once, at most one in each function and none in two functions of which one reaches the other by calls: each function has
its own verdict. A mutant that is accepted so is judged once more alone, and so is each change of a constant that stands
outside the functions.

A goal is named after the code that it comes from, as `returns-then-n-lt8` after `n < 8`. So a change can take the name
away under which a proof file answers a goal, and the crate is refused whatever its contracts say. Where that is so the
names in the proof files are turned to those that the prover asks for, and it is asked again.

For each mutant one line: `refused`, `by a name` (a proof file still names what the change took away, and nothing else
is refused, so this shows nothing of the contract), `no program` (the compiler refuses it before the prover is asked),
`no verdict` (the prover gives up, or takes longer than its limit), or `ACCEPTED`, which is for a reader to judge: it is
the same program, or a contract is too weak. The last line has the figures. Exit 1 where one was accepted or has no
verdict.
"""

import argparse
import difflib
import os
import re
import shutil
import subprocess
import sys
import tempfile
from pathlib import Path
from typing import NamedTuple

from repository import HOME, SEPARATORS, bodies_of, functions_of, line_at, rattle_code

COMPARISONS = {"<": ["<="], "<=": ["<"], ">": [">="], ">=": [">"], "==": ["!="], "!=": ["=="]}
OPERATORS = {
    "+": ["-"],
    "-": ["+"],
    "*": ["/"],
    "/": ["*"],
    "%": ["/"],
    "+=": ["-="],
    "-=": ["+="],
    "&&": ["||"],
    "||": ["&&"],
}
BITS = {"&": ["|"], "|": ["&"], "^": ["|"], "<<": [">>"], ">>": ["<<"]}
WORDS = {"true": ["false"], "false": ["true"]}

# A binary operator stands between blanks in the layout that `rt fmt` gives; a number is not part of a name, a type or
# another number.
BINARY = re.compile(r"(?<= )(?:<=|>=|==|!=|\+=|-=|&&|\|\||<<|>>|[<>+\-*/%&|^])(?= )")
NOT = re.compile(r"(?<=[ (])!(?=\w)")
NUMBER = re.compile(r"(?<![\w.#])(?:0x[0-9a-fA-F_]+|\d[\d_]*)(?=(?:u8|u16|u32|u64|usize)?\b)")
WORD = re.compile(r"\b(?:true|false)\b")
BYTES = re.compile(r"\bb'[^\\']'|\bb\"[^\\\"]+\"")
ANSWER = re.compile(r"\b(?P<enum>[A-Z]\w*)::(?P<variant>[A-Z][a-z]\w*)\b(?P<payload>\(|\s*\{)?")
ENUM = re.compile(r"\benum\s+(?P<name>\w+)\s*\{")
VARIANT = re.compile(r"\s*(?P<name>[A-Z]\w*)\s*(?P<payload>\([^()]*\)|\{[^{}]*\})?\s*,?")
CONSTANT = re.compile(
    r"^ *(?:pub(?:\([a-z]+\))?\s+)?const\s+(?P<name>\w+)\s*:[^=;]*(?:;[^=;]*)?=(?P<value>[^;]*(?:;\s*\d+\][^;]*)*);",
    re.MULTILINE,
)
SAID = re.compile(
    r"^fn (?P<name>[\w:+]+): (?P<verdict>proved|not proved|no proof(?P<waits>: it calls )?|could not tell)",
    re.MULTILINE,
)
# An error in a function's proof files, and those that only say that a name is not there, with the name.
ERROR = re.compile(r"^(?:\./)?proofs/(?P<function>\S+)/\w+\.antt:\d+:\d+: error: (?P<said>.*)$", re.MULTILINE)
STALE = re.compile(r"has no (?:field )?`(?P<name>[^`]+)`")
# What the prover names: between backticks, or as a field near the one that is not there.
OFFERED = re.compile(r"`([^`\s]+)`|[ (]\.([^\s,()]+)")
TURNS = 3

LIMIT_SECONDS = 600
VERDICTS = ("refused", "by a name", "no program", "no verdict", "ACCEPTED")


class Mutant(NamedTuple):
    path: Path
    place: int
    old: str
    new: str
    function: str
    line: int
    # how the prover names the function; empty for a constant outside the functions
    full: str

    def named(self, root):
        return f"{self.path.relative_to(root)}:{self.line} {self.function}: `{self.old}` -> `{self.new}`"


def enums_of(code):
    """The enums that a file declares: of each the variants' payloads by name."""
    enums = {}
    for match in ENUM.finditer(code):
        body = code[match.end() : code.index("}\n", match.end())]
        enums[match["name"]] = {v["name"]: re.sub(r"\s+", "", v["payload"] or "") for v in VARIANT.finditer(body)}
    return enums


def numbers_beside(text):
    """The numbers one above and one below, written as the number is; 0 and 1 have no smaller one that is not another
    mutant's."""
    number = int(text.replace("_", ""), 0)
    written = hex if text.startswith("0x") else str
    return [written(number + 1)] + ([written(number - 1)] if number > 1 else [])


def byte_beside(text):
    """A byte or a string of bytes with its last byte one up."""
    return text[:-2] + chr(ord(text[-2]) + 1) + text[-1]


def changes_in(text, code, start, end, enums):
    """Every change between two places of a file's text, whose code is known without comments and literals: (place, old,
    new)."""
    for match in BINARY.finditer(code, start, end):
        for table in (COMPARISONS, OPERATORS, BITS):
            for new in table.get(match.group(), []):
                yield match.start(), match.group(), new
    for match in NOT.finditer(code, start, end):
        yield match.start(), "!", ""
    for match in NUMBER.finditer(code, start, end):
        for new in numbers_beside(match.group()):
            yield match.start(), match.group(), new
    for match in BYTES.finditer(text, start, end):
        if code[match.start() + 2 : match.end() - 1].isspace():
            yield match.start(), match.group(), byte_beside(match.group())
    for match in WORD.finditer(code, start, end):
        for new in WORDS[match.group()]:
            yield match.start(), match.group(), new
    for match in ANSWER.finditer(code, start, end):
        variants = enums.get(match["enum"], {})
        own = variants.get(match["variant"])
        for name, payload in variants.items():
            if name != match["variant"] and payload == own and not is_pattern(code, match.end()):
                yield match.start("variant"), match["variant"], name


def is_pattern(code, place):
    """Whether what ends about here is an arm's pattern: `=>` comes before the line's end."""
    return "=>" in code[place : code.find("\n", place)]


def module_of(root, crate, path):
    """The path by which the prover names what a file declares."""
    parts = path.relative_to(root / "crates" / crate / "src").with_suffix("").parts
    return "::".join((crate,) + tuple(part for part in parts if part not in ("lib", "main", "mod")))


def regions_of(code, module):
    """Where code stands that can be changed: (name, the prover's name, start, end) of each function and of each
    constant outside them."""
    bodies = list(bodies_of(code))
    functions = [f for f in functions_of(code) if f.clauses is not None]
    for function, (name, start, end) in zip(functions, bodies):
        full = "::".join((module,) + function.modules + ((function.owner,) if function.owner else ()) + (name,))
        yield name, full, start, end
    for match in CONSTANT.finditer(code):
        if not any(start <= match.start() < end for _, start, end in bodies):
            yield match["name"], "", match.start("value"), match.end("value")


def sources_of(root, crate):
    """The texts of a crate's files, and their codes."""
    paths = sorted((root / "crates" / crate / "src").rglob("*.rt"))
    texts = {path: path.read_text(encoding="utf-8") for path in paths}
    return {path: (text, rattle_code(text)) for path, text in texts.items()}


def mutants_of(root, crate):
    """The mutants of a crate, in the order of its files."""
    enums = {}
    for path in sorted(root.glob("crates/*/src/**/*.rt")):
        enums.update(enums_of(rattle_code(path.read_text(encoding="utf-8"))))
    for path, (text, code) in sources_of(root, crate).items():
        for name, full, start, end in regions_of(code, module_of(root, crate, path)):
            for place, old, new in sorted(changes_in(text, code, start, end, enums)):
                yield Mutant(path, place, old, new, name, line_at(code, place), full)


def reach_of(root, crate):
    """For each function of a crate the functions that it reaches by calls; a call is known by the callee's name alone,
    so they may be too many."""
    bodies, named = {}, {}
    for path, (_, code) in sources_of(root, crate).items():
        for name, full, start, end in regions_of(code, module_of(root, crate, path)):
            bodies[full] = set(re.findall(r"\w+", code[start:end]))
            named.setdefault(name, set()).add(full)
    reach = {full: set().union(*(named[word] for word in words if word in named)) for full, words in bodies.items()}
    changed = True
    while changed:
        changed = False
        for full, reached in reach.items():
            more = set().union(reached, *(reach[other] for other in reached))
            changed, reach[full] = changed or more != reached, more
    return reach


def rounds_of(mutants, reach):
    """The numbered mutants in groups that one run can judge: in each, functions of which none reaches another."""
    waiting = {}
    for number, mutant in mutants:
        key = mutant.full or f"constant {number}"
        waiting.setdefault(key, []).append((number, mutant))
    while waiting:
        chosen = []
        for full in sorted(waiting, key=lambda key: -len(waiting[key])):
            alone = full.startswith("constant ")
            apart = (
                all(full not in reach[other] and other not in reach[full] for other in chosen)
                if chosen and not alone
                else not chosen
            )
            if apart:
                chosen.append(full)
            if alone and chosen == [full]:
                break
        yield [waiting[full].pop(0) for full in chosen]
        waiting = {full: left for full, left in waiting.items() if left}


class Prover:
    """`rt check` on one crate of a copy of the repository, each time from what it knew of the crate unchanged."""

    def __init__(self, root, crate):
        self.folder = root / "crates" / crate
        self.known, self.kept = self.folder / "out/incremental", root / "kept" / crate

    def said(self):
        """What `rt check` prints, and its exit; None where it takes too long."""
        if self.kept.is_dir():
            shutil.rmtree(self.known, ignore_errors=True)
            shutil.copytree(self.kept, self.known)
        ran = subprocess.Popen(
            ["rt", "check"],
            cwd=self.folder,
            stdout=subprocess.PIPE,
            stderr=subprocess.STDOUT,
            text=True,
            start_new_session=True,
        )
        try:
            return ran.communicate(timeout=LIMIT_SECONDS)[0], ran.returncode
        except subprocess.TimeoutExpired:
            os.killpg(ran.pid, 9)
            ran.communicate()
            return None

    def begin(self):
        """Checks the crate as it stands, and keeps what the prover then knows."""
        said = self.said()
        if said is None or said[1] != 0:
            sys.exit(f"{self.folder.name} is not proved as it stands")
        shutil.copytree(self.known, self.kept)

    def judge(self, mutants):
        """The verdict on each of several mutants in functions apart from one another."""
        texts = {mutant.path: mutant.path.read_text(encoding="utf-8") for mutant in mutants}
        try:
            for path, text in texts.items():
                path.write_text(changed(text, [mutant for mutant in mutants if mutant.path == path]), encoding="utf-8")
            said = self.said()
            for _ in range(TURNS):
                if said is None or not self.turn_names(said[0], texts):
                    break
                said = self.said()
        finally:
            for path, text in texts.items():
                path.write_text(text, encoding="utf-8")
        return verdicts(mutants, said)

    def turn_names(self, said, texts):
        """Turns the names in proof files that the prover does not find, and keeps the texts that these files had.
        Returns whether one was turned."""
        offered, turned = offered_names(said), False
        for function, names in stale_names(said).items():
            for path in sorted((self.folder / "proofs" / function).glob("*.antt")):
                text = path.read_text(encoding="utf-8")
                new = with_names(text, names, offered)
                if new != text:
                    texts.setdefault(path, text)
                    path.write_text(new, encoding="utf-8")
                    turned = True
        return turned


def stale_names(said):
    """The names that the prover does not find, by the folder of proofs/ that they stand in."""
    found = {}
    for error in ERROR.finditer(said):
        stale = STALE.search(error["said"])
        if stale:
            found.setdefault(error["function"], set()).add(stale["name"])
    return found


def offered_names(said):
    """What the prover names in place of each name that it does not find, on the line that says so and on the indented
    ones below it."""
    found, asked = {}, None
    for line in said.splitlines():
        stale = STALE.search(line)
        if stale:
            asked = found.setdefault(stale["name"], set())
        elif not line.startswith(" "):
            asked = None
        if asked is not None:
            asked.update(one or other for one, other in OFFERED.findall(line))
    return found


def name_pattern(name):
    return re.compile(rf"(?<![^{SEPARATORS}]){re.escape(name)}(?![^{SEPARATORS}])")


def with_names(text, names, offered):
    """A proof file's text with each of these names turned to the nearest one that is offered for it and not used
    there."""
    for name in sorted(names):
        free = sorted(other for other in offered[name] - names if not name_pattern(other).search(text))
        for nearest in difflib.get_close_matches(name, free, 1, 0.7):
            text = name_pattern(name).sub(lambda _, nearest=nearest: nearest, text)
    return text


def changed(text, mutants):
    """The text with the mutants' changes, the last first, so that the others' places hold."""
    for mutant in sorted(mutants, key=lambda mutant: -mutant.place):
        text = text[: mutant.place] + mutant.new + text[mutant.place + len(mutant.old) :]
    return text


def verdicts(mutants, said):
    """What the prover's words mean for each mutant; None where several stand or fall together and were not told
    apart."""
    if said is None:
        return ["no verdict"] if len(mutants) == 1 else None
    text, status = said
    functions = {match["name"]: "waits" if match["waits"] else match["verdict"] for match in SAID.finditer(text)}
    names = homes_of(mutants, functions)
    if not functions:
        return ["no program"] if len(mutants) == 1 else None
    if len(mutants) == 1:
        found = {0: "ACCEPTED", 1: "refused"}.get(status, "no verdict")
        return ["by a name" if found == "refused" and is_by_name(text) else found]
    each = []
    for mutant in mutants:
        full = names.get(mutant.full, mutant.full)
        found = {"proved": "ACCEPTED", "not proved": "refused", "no proof": "refused"}.get(functions.get(full))
        folder = "/".join(full.split("::")[1:])
        each.append("by a name" if found == "refused" and is_by_name(text, folder) else found)
    return each if all(each) else None


def is_by_name(text, folder=None):
    """Whether the prover's errors, or those in one folder of proofs/, only say that a name is not there."""
    errors = [error["said"] for error in ERROR.finditer(text) if folder in (None, error["function"])]
    return bool(errors) and all(map(STALE.search, errors))


def homes_of(mutants, functions):
    """A method stands under its type's module for the prover, wherever the file's is: the mutants' names that are found
    so, by their last two parts."""
    homes = {}
    for full in {mutant.full for mutant in mutants} - set(functions):
        alike = [name for name in functions if name.split("::")[-2:] == full.split("::")[-2:]]
        if len(alike) == 1:
            homes[full] = alike[0]
    return homes


def judged(prover, mutants):
    """The verdicts on a round, in its order: of halves where it could not be told, and alone where one was accepted."""
    said = prover.judge(mutants)
    if said is None:
        half = len(mutants) // 2
        return judged(prover, mutants[:half]) + judged(prover, mutants[half:])
    if len(mutants) > 1:
        return [
            prover.judge([mutant])[0] if verdict == "ACCEPTED" else verdict for mutant, verdict in zip(mutants, said)
        ]
    return said


def copied(home, folder):
    """A copy of the crates. What was proved of them rt takes from where it was proved."""
    root = Path(folder) / "copy"
    root.mkdir()
    for crate in (path for path in sorted((home / "crates").iterdir()) if path.is_dir()):
        shutil.copytree(
            crate, root / "crates" / crate.name, ignore=lambda at, _, top=crate: ["out"] if Path(at) == top else []
        )
    for name in ("crates.txt", "HANDLES"):
        if (home / name).is_file():
            shutil.copy(home / name, root)
    return root


def spread(mutants, most):
    """At most so many of the numbered mutants of each function or constant, spread evenly."""
    places = {}
    for number, mutant in mutants:
        places.setdefault((mutant.path, mutant.full or mutant.function), []).append((number, mutant))
    kept = []
    for group in places.values():
        few = min(most, len(group))
        kept += [group[k * len(group) // few] for k in range(few)]
    return sorted(kept)


def chosen_of(root, crate, functions):
    """The numbered mutants of a crate, or of those functions and constants of it."""
    return [
        (number, mutant)
        for number, mutant in enumerate(mutants_of(root, crate))
        if not functions or mutant.function in functions
    ]


def run(root, crate, functions, most):
    """Judges the mutants of a crate, or of some functions of it; returns how many had which verdict, and how many were
    left out."""
    figures = dict.fromkeys(VERDICTS, 0)
    prover = Prover(root, crate)
    prover.begin()
    every = chosen_of(root, crate, functions)
    chosen = spread(every, most)
    figures["left out"] = len(every) - len(chosen)
    for group in rounds_of(chosen, reach_of(root, crate)):
        for (number, mutant), said in zip(group, judged(prover, [mutant for _, mutant in group])):
            figures[said] += 1
            print(f"{number} {said}: {mutant.named(root)}", flush=True)
    return figures


def main(arguments):
    parser = argparse.ArgumentParser(description=__doc__.splitlines()[0])
    parser.add_argument("--of-one", type=int, default=sys.maxsize)
    parser.add_argument("--function", action="append", default=[])
    parser.add_argument("--list", action="store_true")
    parser.add_argument("crates", nargs="+")
    chosen = parser.parse_args(arguments)
    if chosen.list:
        for crate in chosen.crates:
            for number, mutant in chosen_of(HOME, crate, chosen.function):
                print(number, mutant.named(HOME))
        return 0
    open_ones = 0
    with tempfile.TemporaryDirectory() as folder:
        root = copied(HOME, folder)
        for crate in chosen.crates:
            figures = run(root, crate, chosen.function, chosen.of_one)
            open_ones += figures["ACCEPTED"] + figures["no verdict"]
            print(f"{crate}: " + ", ".join(f"{count} {said}" for said, count in figures.items()), flush=True)
    return 1 if open_ones else 0


if __name__ == "__main__":
    sys.exit(main(sys.argv[1:]))
