"""Tests of make_header.py on the repository's own files: they pass, and a number that is another one is found, wherever
it is changed."""

import re
import subprocess
import sys
import unittest
from pathlib import Path

from trees import TOOLS, TreeCase

HOME = Path(__file__).resolve().parents[2]
HEADER = "bindings/c/turgamysk.h"
REFUSALS = "docs/REFUSALS.md"
CRATES = ("capi", "primitives", "names", "name_state", "name_state_codec", "covenants", "runs", "sheets", "reports")
DEFINITION = re.compile(r"\n#define TURGAMYSK_(?!VERSION )\w+ \d+")
SPECS = ("capi/specs/Amounts", "name_state/specs/Paper", "reports/specs/Theorems", "sheets/specs/Sheet")


def own_files():
    paths = [HEADER, REFUSALS, *(f"crates/{name}.antt" for name in SPECS)]
    for crate in CRATES:
        paths += (path.relative_to(HOME).as_posix() for path in (HOME / "crates" / crate / "src").rglob("*.rt"))
    return {path: (HOME / path).read_text(encoding="utf-8") for path in paths}


class MakeHeader(TreeCase):
    script = "make_header.py"
    words = ("--check",)
    good = own_files()

    def changed(self, pattern, new):
        """The one file, the header apart, that the pattern is found in, with what it finds there replaced."""
        found = {path: text for path, text in self.good.items() if path != HEADER and re.search(pattern, text)}
        self.assertEqual(1, len(found), pattern)
        ((path, text),) = found.items()
        return {path: re.sub(pattern, new, text, count=1)}

    def test_own_files(self):
        self.assert_passes({}, f"header: {len(DEFINITION.findall(self.good[HEADER]))} constants, 0 findings")

    def test_another_number_in_what_it_is_read_from(self):
        for pattern, new, line in (
            (r"pub const MAX_NAME_SIZE: usize = 63;", "pub const MAX_NAME_SIZE: usize = 64;", "MAX_NAME_SIZE 64"),
            (r"MAX_RESOURCE_SIZE: usize = 512;", "MAX_RESOURCE_SIZE: usize = 511;", "MAX_RESOURCE_SIZE 511"),
            (r"MAX_SIZE: usize = 668;", "MAX_SIZE: usize = 6_680;", "MAX_RECORD_SIZE 6680"),
            (r"MAX_ITEMS: usize = 1000;", "MAX_ITEMS: usize = 999;", "MAX_ITEMS 999"),
            (r"pub starts: \[usize; 1000\]", "pub starts: [usize; 999]", "DIRECTORY_SIZE 999"),
            (
                r"ALLOWANCE: usize = Covenant::MAX_ENCODED_SIZE;",
                "ALLOWANCE: usize = Covenant::MAX_ITEM_SIZE;",
                "RUN_ALLOWANCE 1000000",
            ),
            (r"LONGEST: usize = 32_768;", "LONGEST: usize = 32_769;", "MAX_REPORT_SHEET_SIZE 32769"),
            (r"LONGEST: usize = 16_777_216;", "LONGEST: usize = 9;", "MAX_SHEET_SIZE 9"),
            (r"(LinkLineFits = .* ≤) 89", r"\1 90", "MAX_LINK_LINE_SIZE 90"),
            (r"\nclass_number Class\.Free = 2", "\nclass_number Class.Free = 3", "CLASS_FREE 3"),
            (r"\ncoins_at s = sheet_at 1 s ", "\ncoins_at s = sheet_at 2 s ", "SIDE_COINS 2"),
            (r"pub const BID: u8 = 3;", "pub const BID: u8 = 33;", "KIND_BID 33"),
            (r"\| 29 \| `NoRoom`", "| 31 | `NoRoom`", "REFUSAL_NO_ROOM 31"),
            (r"6 bid commitment", "9 bid commitment", "9 bid commitment, 7 transfer version, 8 transfer hash."),
        ):
            with self.subTest(line):
                status, lines = self.run_check(self.changed(pattern, new))
                self.assertEqual(1, status)
                self.assertRegex(lines[0], f"^{HEADER}:[0-9]+: .* stands where tools/make_header.py writes ")
                self.assertTrue(lines[0].endswith(line), lines[0])

    def test_a_limit_that_two_constants_say(self):
        """The longest covenant is what a run allows too; the first line that differs is told."""
        status, lines = self.run_check(
            self.changed(r"MAX_ENCODED_SIZE: usize = 1_000_009;", "MAX_ENCODED_SIZE: usize = 7;")
        )
        self.assertEqual((1, 2), (status, len(lines)))
        self.assertTrue(lines[0].endswith("#define TURGAMYSK_MAX_COVENANT_SIZE 7"), lines[0])

    def test_another_number_in_the_header(self):
        for line in DEFINITION.findall(self.good[HEADER])[::9]:
            header = self.good[HEADER].replace(line + "\n", line + "0\n")
            number = header[: header.index(line)].count("\n") + 2
            said = f"{line.strip()}0 stands where tools/make_header.py writes {line.strip()}"
            with self.subTest(line.strip()):
                self.assert_finds({HEADER: header}, f"{HEADER}:{number}: {said}")

    def test_another_version(self):
        for header, said in (
            (self.good[HEADER].replace("\n#define TURGAMYSK_VERSION 1\n", "\n"), "not there"),
            (self.good[HEADER].replace("TURGAMYSK_VERSION 1\n", "TURGAMYSK_VERSION 2\n"), "2"),
        ):
            with self.subTest(said):
                wrong = f"TURGAMYSK_VERSION is {said}, and 1 in crates/capi"
                self.assert_finds({HEADER: header}, f"{HEADER}:1: {wrong}")
        changes = self.changed(r"pub const VERSION: u32 = 1;", "pub const VERSION: u32 = 2;")
        self.assert_finds(changes, f"{HEADER}:1: TURGAMYSK_VERSION is 1, and 2 in crates/capi")

    def test_a_line_too_few(self):
        header = self.good[HEADER].replace("\n\n/* ---- constants (to here)", "\n/* ---- constants (to here)")
        status, lines = self.run_check({HEADER: header})
        self.assertEqual(1, status)
        self.assertRegex(lines[0], f"^{HEADER}:[0-9]+: [0-9]+ lines where tools/make_header.py writes [0-9]+$")

    def test_reasons_that_differ_from_the_codes(self):
        changes = self.changed(r"SafeInteger = 6,", "SafeInteger = 7,")
        wrong = "SAFE_INTEGER is 7, and 6 in docs/REFUSALS.md"
        self.assert_finds(changes, f"crates/name_state_codec/src:1: {wrong}")

    def test_a_constant_that_is_gone(self):
        changes = self.changed(r"pub const MAX_ITEM_SIZE: usize", "pub const LARGEST_ITEM: usize")
        self.assert_finds(changes, "crates/covenants/src:1: 0 constants Covenant::MAX_ITEM_SIZE")

    def test_a_definition_that_is_gone(self):
        status, lines = self.run_check({"crates/capi/specs/Amounts.antt": "\n"})
        self.assertEqual(1, status)
        self.assertRegex(lines[0], "^crates/capi/specs/Amounts.antt:1: 0 times ")

    def test_no_marks(self):
        header = self.good[HEADER].replace("---- constants (to here)", "----")
        self.assert_finds({HEADER: header}, f"{HEADER}:1: no block of constants between its marks")

    def test_the_block_is_written_anew(self):
        emptied = re.sub(
            r"(from here\) \*/\n).*?(/\* ---- constants \(to here)", r"\1\2", self.good[HEADER], flags=re.DOTALL
        )
        self.assertLess(len(emptied), len(self.good[HEADER]))
        self.run_check({HEADER: emptied})
        subprocess.run([sys.executable, "-B", str(TOOLS / self.script), str(self.root)], check=True)
        self.assertEqual(self.good[HEADER], (self.root / HEADER).read_text(encoding="utf-8"))


if __name__ == "__main__":
    unittest.main()
