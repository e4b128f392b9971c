"""Tests of check_style.py: what it gives to which command, and that it fails where one of them does."""

import os
import unittest
from unittest import mock

from trees import TreeCase

SHELLCHECK = "shellcheck scripts/bare scripts/run"
BLACK = "black --check --quiet --diff scripts/seeds tools/check.py"
CLIPPY = (
    "cargo clippy --offline --locked --quiet --all-targets --manifest-path {} --target-dir target/clippy"
    " --config original/debian.toml -- --deny warnings"
)
RUNS = [
    SHELLCHECK,
    BLACK,
    "cargo fmt --check --manifest-path beside/Cargo.toml",
    CLIPPY.format("beside/Cargo.toml"),
    "cargo fmt --check --manifest-path own/Cargo.toml",
    CLIPPY.format("own/Cargo.toml"),
]


class CheckStyle(TreeCase):
    script = "check_style.py"
    good = {
        "scripts/run": "#!/usr/bin/env bash\n",
        "scripts/bare": "#! /bin/sh\n",
        "scripts/seeds": "#!/usr/bin/env python3\n",
        "scripts/empty": "",
        "scripts/notes": "# !bash\n",
        "scripts/growth.svg": b"\xff\xfe#!/bin/sh\n",
        "tools/check.py": "",
        "own/Cargo.toml": "",
        "beside/Cargo.toml": 'hns-one = { path = "../target/original/hns-one" }\n',
        "original/Cargo.toml": "",
    }
    laid = {"target/original/hns-one/Cargo.toml": ""}

    def setUp(self):
        """Stand-ins for the commands: each says how it was called, and one of them, by the name in REFUSING, fails."""
        super().setUp()
        commands = self.root / "target" / "commands"
        commands.mkdir(parents=True)
        for name in ("shellcheck", "black", "cargo"):
            path = commands / name
            path.write_text(f'#!/bin/sh\necho "{name} $*"\n[ "{name} $1" != "$REFUSING" ]\n')
            path.chmod(0o755)
        self.use({"PATH": f"{commands}:{os.environ['PATH']}"})

    def use(self, environment):
        patch = mock.patch.dict(os.environ, environment)
        patch.start()
        self.addCleanup(patch.stop)

    def test_every_command_and_its_files(self):
        self.assert_passes(self.laid, *RUNS, "style: 6 runs, 0 findings")

    def test_the_original_is_not_laid_out(self):
        told = "beside/Cargo.toml: not given to clippy, as the original is not laid out"
        self.assert_passes({}, *RUNS[:3], told, *RUNS[4:], "style: 5 runs, 0 findings")

    def test_a_command_that_refuses(self):
        for refusing, said in (
            ("shellcheck scripts/bare", ["shellcheck"]),
            ("black --check", ["black"]),
            ("cargo fmt", ["cargo fmt on beside/Cargo.toml", "cargo fmt on own/Cargo.toml"]),
            ("cargo clippy", ["cargo clippy on beside/Cargo.toml", "cargo clippy on own/Cargo.toml"]),
        ):
            with self.subTest(refusing):
                self.use({"REFUSING": refusing})
                status, lines = self.run_check(self.laid)
                self.assertEqual((1, f"style: 6 runs, {len(said)} findings"), (status, lines[-1]))
                self.assertEqual(
                    [f"refused by {name}" for name in said], [line for line in lines if line not in RUNS][:-1]
                )

    def assert_widths(self, path, text, *found):
        """In a file of this text alone the comments of these lines and columns are too wide."""
        self.use({"REFUSING": ""})
        _, lines = self.run_check({**dict.fromkeys(self.good), path: text})
        (self.root / path).unlink()
        told = [f"{path}:{number}: a comment of {columns} columns" for number, columns in found]
        self.assertEqual(told, [line for line in lines if "columns" in line])
        self.assertTrue(lines[-1].endswith(f", {len(found)} findings"), lines[-1])

    def test_comments_that_are_too_wide(self):
        words, wide = "x" * 100, "x" * 121
        for path, mark in (("a.rt", "//"), ("a.rs", "//!"), ("a.c", "//"), ("a.h", "///"), ("a.antt", "--")):
            with self.subTest(path):
                fits = f"    {mark} {'x' * (115 - len(mark))}\n"
                self.assertEqual(120, len(fits.rstrip("\n")))
                self.assert_widths(path, fits)
                self.assert_widths(path, f"code\n    {mark} {words}{words}\n", (2, 205 + len(mark)))
                self.assert_widths(path, f"{wide} {mark} after code\n")
        self.assert_widths("run", f"#!/bin/sh\n  # {wide}\n{wide} # after code\n", (2, 125))
        self.assert_widths("notes", f"# {wide}\n")

    def test_comments_over_lines(self):
        wide = "x" * 121
        block = f"/* {wide} */\nint {wide};\n  /*\n   * {wide}\n   */\n*{wide} = 1; /* {wide} */\n"
        self.assert_widths("a.c", block, (1, 127), (4, 126))

    def test_comments_of_python(self):
        wide = "x" * 121
        texts = f'"""One.\n\n{wide}\n"""\n# {wide}\nA = """{wide}\n# {wide}"""\nB = 1  # {wide}\n'
        within = f'\n\ndef f():\n    """{wide}"""\n    return """{wide}"""\n'
        self.assert_widths("a.py", texts + within, (3, 121), (5, 123), (12, 131))

    def test_nothing_to_judge(self):
        self.assert_passes(dict.fromkeys(self.good), "style: 0 runs, 0 findings")


if __name__ == "__main__":
    unittest.main()
