"""What the checks of this folder share: the repository's files and crates, and how Rattle, antt and Markdown are
read."""

import os
import re
import shutil
import subprocess
from collections import Counter
from pathlib import Path
from typing import FrozenSet, NamedTuple, Optional, Tuple

HOME = Path(__file__).resolve().parent.parent

# A name of antt is any run of characters but these.
SEPARATORS = r'\s(){}.;,@"«»'

# Comments, texts, and the characters and bytes between two apostrophes; a name in a clause may end in one.
RATTLE_ASIDE = re.compile(
    r"""//[^\n]*|"(?:\\.|[^"\\])*"|(?<![\w'])b?'(?:\\(?:x[0-9a-fA-F]{2}|u\{[0-9a-fA-F_]+\}|.)|[^\\'\n])'""", re.DOTALL
)
PROOF_ASIDE = re.compile(rf'\{{-.*?-\}}|"(?:\\.|[^"\\])*"|(?<![^{SEPARATORS}])--[^\n]*', re.DOTALL)

FUNCTION = re.compile(r'\b(?P<public>pub\s+)?(?:(?:const|unsafe|extern\s*(?:"[^"]*")?)\s+)*fn\s+(?P<name>\w+)')
BLOCK = re.compile(
    r"^[ \t]*(?:(?P<public>pub\s+)|pub\([^()]*\)\s+)?(?:unsafe\s+)?(?P<kind>impl|mod|trait)\b\s*"
    r"(?:<(?:[^<>{};]|<[^<>{};]*>)*>\s*)?(?:[^;{}]*\bfor\s+)?(?:\w+\s*::\s*)*(?P<name>\w+)[^;{}]*\{",
    re.MULTILINE,
)
HEADER_TOKEN = re.compile(r"\w+|[()\[\]{};]")
BRACE = re.compile(r"[{}]")
CLAUSES = ("requires", "ensures", "ghost")
PARAMETER = re.compile(r"(\w+)\s*:(?!:)")
# A clause may have a name, and a star where it holds what is said of memory.
ENSURES = re.compile(r"\bensures\*?(?:\s+\w+)?\s*\{")

GHOST_USE = re.compile(r"\bghost use (?P<module>[^\s;{]*)\.\{(?P<names>[^}]*)\};")
# A name with what stands behind its dots, or the dots behind a parenthesis. A type's or module's name begins with a
# capital, and what follows it is a name of its own; behind any other the fields of a value follow.
DOTTED = re.compile(rf"(?P<head>[^{SEPARATORS}⌜⌝]*)(?:\.[^{SEPARATORS}⌜⌝]+)+")
TOKEN = re.compile(rf"[^{SEPARATORS}⌜⌝]+")

# What may stand behind a crate's name in crates.txt.
MARK = re.compile(r"staticlib|\w+=\S+")

BACKTICKED = re.compile(r"`([^`]+)`")


class Findings(list):
    """What is wrong, a line for each."""

    def add(self, path, line, wrong):
        self.append(f"{path}:{line}: {wrong}")


class Listed(NamedTuple):
    """A crate of crates.txt: its line, whether it is a static library, and the crates below it."""

    line: int
    is_static: bool
    below: Tuple[str, ...]


class Function(NamedTuple):
    """A function of a Rattle file. Its clauses are None where no body follows the signature."""

    name: str
    modules: Tuple[str, ...]
    owner: str
    line: int
    public: bool
    clauses: Optional[FrozenSet[str]]
    parameters: FrozenSet[str]


def report(summary, findings):
    """Prints the findings and the closing line; returns the exit status."""
    for finding in findings:
        print(finding)
    print(f"{summary}, {len(findings)} findings")
    return 1 if findings else 0


def root_of(arguments):
    """The root to check: the one argument, or the repository that this file stands in."""
    return Path(arguments[0]).resolve() if arguments else HOME


def read(path):
    """The text of a file, and nothing where there is none."""
    return path.read_text(encoding="utf-8", errors="replace") if path.is_file() else ""


def list_files(root):
    """The files below the root that git tracks or would track; without git all but target/, .git/ and what rt makes in
    a crate's out/."""
    # Only a root with a .git of its own: of a folder that a checkout further up ignores git would list nothing.
    if (root / ".git").exists() and shutil.which("git"):
        command = ["git", "-C", str(root), "ls-files", "-z", "--cached", "--others", "--exclude-standard"]
        listed = subprocess.run(command, capture_output=True)
        if listed.returncode == 0:
            return sorted({path for path in os.fsdecode(listed.stdout).split("\0") if path and (root / path).is_file()})
    paths = (path.relative_to(root) for path in root.rglob("*") if path.is_file())
    return sorted(path.as_posix() for path in paths if path.parts[0] not in ("target", ".git") and not is_made(path))


def is_made(path):
    """Whether a path stands in the folder out/ of a crate."""
    return path.parts[0] == "crates" and path.parts[2:3] == ("out",)


def read_crates(root, findings):
    """The crates that crates.txt lists, by their names."""
    crates = {}
    if not (root / "crates.txt").is_file():
        findings.add("crates.txt", 1, "missing")
    for number, line in enumerate(read(root / "crates.txt").splitlines(), 1):
        head, colon, below = line.partition("#")[0].partition(":")
        name, *marks = head.split() or [""]
        if colon and name and all(MARK.fullmatch(mark) for mark in marks):
            crates[name] = Listed(number, "staticlib" in marks, tuple(below.split()))
        elif name or colon:
            findings.add("crates.txt", number, "not of the form NAME: DEP DEP ..")
    return crates


def line_at(text, place):
    return text.count("\n", 0, place) + 1


def blanked(aside, text):
    """The text with all that `aside` matches made blank, but for its lines, and quotes, which `extern "C"` is known
    by."""
    return aside.sub(lambda match: re.sub(r'[^\n"]', " ", match.group()), text)


def rattle_code(text):
    """A Rattle file without its comments and literals, which may hold braces and words of their own."""
    return blanked(RATTLE_ASIDE, text)


def proof_code(text):
    """An antt file without its comments and texts."""
    return blanked(PROOF_ASIDE, text)


def closing_brace(code, opening):
    """The place of the brace that closes the one at `opening`, or None."""
    depth = 0
    for brace in BRACE.finditer(code, opening):
        depth += 1 if brace.group() == "{" else -1
        if depth == 0:
            return brace.start()
    return None


def header_from(code, place):
    """The kinds of the clauses between a function's name, which ends at `place`, and its body, and where the body's
    brace is; None without a body."""
    kinds, pending, depth = set(), None, 0
    token = HEADER_TOKEN.search(code, place)
    while token:
        text, place = token.group(), token.end()
        if text in "([":
            depth += 1
        elif text in ")]":
            depth -= 1
        elif depth == 0 and text in CLAUSES:
            pending = text
        elif depth == 0 and text == "{" and pending:
            kinds.add(pending)
            pending, place = None, closing_brace(code, token.start())
            if place is None:
                return None
        elif depth == 0 and text in "{;":
            return frozenset(kinds), token.start()
        token = HEADER_TOKEN.search(code, place)
    return None


def bodies_of(code):
    """The functions' bodies in a Rattle file, from its code without comments: of each the name and the places of its
    braces."""
    for match in FUNCTION.finditer(code):
        header = header_from(code, match.end())
        if header and code[header[1]] == "{":
            yield match["name"], header[1], closing_brace(code, header[1]) or len(code)


def functions_of(code):
    """The functions of a Rattle file, from its code without comments."""
    blocks = []
    for block in BLOCK.finditer(code):
        kind = "public trait" if block["kind"] == "trait" and block["public"] else block["kind"]
        blocks.append((kind, block["name"], block.end(), closing_brace(code, block.end() - 1) or len(code)))
    functions = []
    for match in FUNCTION.finditer(code):
        around = [(kind, name) for kind, name, start, end in blocks if start <= match.start() < end]
        modules = tuple(name for kind, name in around if kind == "mod")
        owner = "".join(name for kind, name in around if kind != "mod")
        # The methods of a public trait are as public as it is, with no word of their own.
        public = bool(match["public"]) or any(kind == "public trait" for kind, _ in around)
        line = line_at(code, match.start("name"))
        header = header_from(code, match.end())
        signature = code[match.end() : header[1]] if header else ""
        parameters = frozenset(PARAMETER.findall(re.split(r"->|\b(?:requires|ensures|ghost)\b", signature)[0]))
        functions.append(Function(match["name"], modules, owner, line, public, header and header[0], parameters))
    return functions


def ensures_of(text, function):
    """What stands in the braces of the `ensures` of a function, one of those that `functions_of` found in the text's
    code."""
    code = rattle_code(text)
    start = next(match for match in FUNCTION.finditer(code) if line_at(code, match.start("name")) == function.line)
    header = header_from(code, start.end())
    held = []
    for match in ENSURES.finditer(code, start.end(), header[1] if header else start.end()):
        held.append(text[match.end() : closing_brace(code, match.end() - 1)])
    return held


def words_of(text, modules=frozenset()):
    """How often each name and number stands in a text of antt, fields apart; what follows one of these modules' names
    is a name too."""

    def without_fields(dotted):
        is_path = dotted["head"][:1].isupper() or dotted["head"] in modules
        return dotted.group() if is_path else dotted["head"] + " "

    return Counter(TOKEN.findall(DOTTED.sub(without_fields, text)))


def names_of(listed):
    """The names between the braces of a use."""
    return re.findall(r"[^\s,]+", listed)


def only_section(text, heading):
    """The text with the lines outside the section of that heading emptied, so that the others keep their numbers."""
    inside, lines = False, []
    for line in text.splitlines():
        if re.match("##? ", line):
            inside = line.rstrip() == heading
        lines.append(line if inside else "")
    return "\n".join(lines)


def is_row(line):
    return line.lstrip().startswith("|")


def cells_of(line):
    """The cells of a table's row; a pipe in a cell is written with a backslash."""
    cells = [cell.strip() for cell in re.split(r"(?<!\\)\|", line.strip())[1:]]
    return cells[:-1] if cells[-1] == "" else cells


def tables_of(text):
    """The tables of a Markdown text without their heads, each a list of (line, cells)."""
    tables, inside = [], False
    for number, line in enumerate(text.splitlines(), 1):
        if is_row(line) and not inside:
            tables.append([])
        inside = is_row(line)
        if inside:
            tables[-1].append((number, cells_of(line)))
    return [rows[2:] for rows in tables]
