"""Holds the Rust to `cargo fmt` and `cargo clippy`, the shell scripts to shellcheck and the Python to black: no change
and no warning. No comment that has its lines for itself is wider than 120 columns.

    python3 tools/check_style.py [ROOT]

What leans on the original is given to clippy only where original/lay has laid it out. The original's own manifests are
left as they are.
"""

import ast
import io
import re
import subprocess
import sys
import tokenize

from repository import Findings, list_files, read, root_of

LAID = "target/original"
SHELLS = ("sh", "bash")
WIDTH = 120
# What a line begins with that is a comment and nothing else, by the file's ending; those of C may go on over lines.
COMMENT = {".rt": "//", ".rs": "//", ".antt": "--", ".c": "//", ".h": "//"}
C_COMMENT = re.compile(r"^[ \t]*/\*.*?\*/", re.DOTALL | re.MULTILINE)
DOCUMENTED = (ast.Module, ast.ClassDef, ast.FunctionDef, ast.AsyncFunctionDef)


def interpreter_of(root, path):
    """The program that a script names in its first line, as `bash`; nothing where it names none."""
    with open(root / path, "rb") as file:
        first = file.readline(200).decode(errors="replace")
    return first.split()[-1].split("/")[-1] if first.startswith("#!") and first.split()[-1] != "#!" else ""


def is_python(root, path):
    return path.endswith(".py") or interpreter_of(root, path).startswith("python")


def lines_between(text, start, end):
    """The numbers of the lines that a part of a text stands in."""
    return range(text.count("\n", 0, start) + 1, text.count("\n", 0, end) + 2)


def python_comments(text):
    """The lines of a Python text that are a comment and nothing else, or of a docstring."""
    found = set()
    for token in tokenize.generate_tokens(io.StringIO(text).readline):
        if token.type == tokenize.COMMENT and not token.line[: token.start[1]].strip():
            found.add(token.start[0])
    for node in ast.walk(ast.parse(text)):
        if isinstance(node, DOCUMENTED) and ast.get_docstring(node) is not None:
            found.update(range(node.body[0].lineno, node.body[0].end_lineno + 1))
    return found


def comments_of(root, path, text):
    """The numbers of the lines of a file that are a comment and nothing else."""
    if is_python(root, path):
        return python_comments(text)
    ending = "." + path.rsplit(".", 1)[-1]
    mark = COMMENT.get(ending) or "#" * (interpreter_of(root, path) in SHELLS)
    found = {number for number, line in enumerate(text.split("\n"), 1) if mark and line.lstrip().startswith(mark)}
    if ending in (".c", ".h"):
        found.update(number for part in C_COMMENT.finditer(text) for number in lines_between(text, *part.span()))
    return found


def check_widths(root, files, findings):
    """No comment is too wide. A comment after code is as wide as its line may be."""
    for path in files:
        text = read(root / path)
        wide = {number: len(line) for number, line in enumerate(text.split("\n"), 1) if len(line) > WIDTH}
        for number in sorted(wide.keys() & comments_of(root, path, text)) if wide else ():
            findings.add(path, number, f"a comment of {wide[number]} columns")


def manifests_of(files):
    return [path for path in files if path.split("/")[-1] == "Cargo.toml" and not path.startswith("original/")]


def is_ready(root, manifest):
    """Whether all that a manifest leans on is there."""
    return LAID not in read(root / manifest) or (root / LAID).is_dir()


def commands_of(root, files):
    """The commands that judge these files, none of which changes one, each after the words that it is known by."""
    scripts = [path for path in files if interpreter_of(root, path) in SHELLS]
    pythons = [path for path in files if is_python(root, path)]
    if scripts:
        yield "shellcheck", ["shellcheck", *scripts]
    if pythons:
        yield "black", ["black", "--check", "--quiet", "--diff", *pythons]
    for manifest in manifests_of(files):
        named = ["--manifest-path", manifest]
        yield f"cargo fmt on {manifest}", ["cargo", "fmt", "--check", *named]
        if is_ready(root, manifest):
            # One folder for all, so that what they share is compiled once.
            named += ["--target-dir", "target/clippy", "--config", "original/debian.toml"]
            words = ["--offline", "--locked", "--quiet", "--all-targets", *named, "--", "--deny", "warnings"]
            yield f"cargo clippy on {manifest}", ["cargo", "clippy", *words]
        else:
            print(f"{manifest}: not given to clippy, as the original is not laid out", flush=True)


def main(arguments):
    root = root_of(arguments)
    files = list_files(root)
    findings = Findings()
    check_widths(root, files, findings)
    for finding in findings:
        print(finding, flush=True)
    runs, refused = 0, len(findings)
    for name, command in commands_of(root, files):
        runs += 1
        if subprocess.run(command, cwd=root).returncode != 0:
            refused += 1
            print(f"refused by {name}", flush=True)
    print(f"style: {runs} runs, {refused} findings")
    return 1 if refused else 0


if __name__ == "__main__":
    sys.exit(main(sys.argv[1:]))
