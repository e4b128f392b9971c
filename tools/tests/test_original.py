"""Tests of original/lay: it lays out the files of the sums that stand beside it, and refuses others."""

import hashlib
import os
import shutil
import subprocess
import tempfile
import unittest
from pathlib import Path

ORIGINAL = Path(__file__).resolve().parents[2] / "original"
FILES = {"hns-one/src/lib.rs": b"pub mod more;\n", "hns-one/src/more.rs": b"\n"}


class Lay(unittest.TestCase):
    """A repository with a workspace of one crate, and a checkout of the two files that are laid into it."""

    def setUp(self):
        folder = tempfile.TemporaryDirectory()
        self.addCleanup(folder.cleanup)
        self.checkout = Path(folder.name) / "checkout"
        self.original = Path(folder.name) / "repository" / "original"
        self.laid = Path(folder.name) / "repository" / "target" / "original"
        self.write(self.original, {"Cargo.toml": b"[workspace]\n", "blake2/Cargo.toml": b"", "hns-one/Cargo.toml": b""})
        shutil.copy(ORIGINAL / "lay", self.original)
        sums = (f"{hashlib.sha256(content).hexdigest()}  {path}\n" for path, content in FILES.items())
        self.write(self.original, {"sums": ("# the files\n" + "".join(sums)).encode()})
        self.write(self.checkout / "crates", FILES)

    def write(self, folder, files):
        for path, content in files.items():
            (folder / path).parent.mkdir(parents=True, exist_ok=True)
            (folder / path).write_bytes(content)

    def lay(self, checkout, *words):
        environment = {name: value for name, value in os.environ.items() if name != "HNS_RS"}
        if checkout:
            environment["HNS_RS"] = str(checkout)
        return subprocess.run([str(self.original / "lay"), *words], env=environment, capture_output=True, text=True)

    def assert_laid(self, checkout):
        answer = self.lay(checkout)
        self.assertEqual((0, "", ""), (answer.returncode, answer.stdout, answer.stderr))
        for path, content in FILES.items():
            self.assertEqual(content, (self.laid / path).read_bytes())
        self.assertTrue((self.laid / "hns-one" / "Cargo.toml").is_file())

    def assert_not_laid(self, checkout, status, said):
        answer = self.lay(checkout)
        self.assertEqual((status, ""), (answer.returncode, answer.stdout))
        self.assertIn(said, answer.stderr)
        self.assertFalse(self.laid.exists())

    def test_the_files_of_the_sums(self):
        self.assert_laid(self.checkout)

    def test_a_check_lays_nothing(self):
        for checkout, status in ((self.checkout, 0), (self.checkout / "nowhere", 1), (None, 3)):
            with self.subTest(checkout):
                answer = self.lay(checkout, "--check")
                self.assertEqual((status, ""), (answer.returncode, answer.stdout))
                self.assertFalse(self.laid.exists())

    def test_twice(self):
        self.assert_laid(self.checkout)
        (self.laid / "hns-one/src/lib.rs").write_bytes(b"altered where it was laid")
        self.assert_laid(self.checkout)

    def test_the_folder_of_the_desk(self):
        shutil.copytree(self.checkout, self.original.parents[1] / "shared" / "docs" / "src")
        self.assert_laid(None)

    def test_another_file(self):
        self.write(self.checkout / "crates", {"hns-one/src/more.rs": b"\n\n"})
        self.assert_not_laid(self.checkout, 1, "hns-one/src/more.rs: FAILED")

    def test_another_file_in_the_folder_of_the_desk(self):
        self.write(self.checkout / "crates", {"hns-one/src/more.rs": b"\n\n"})
        shutil.copytree(self.checkout, self.original.parents[1] / "shared" / "docs" / "src")
        self.assert_not_laid(None, 1, "hns-one/src/more.rs: FAILED")

    def test_a_missing_file(self):
        (self.checkout / "crates/hns-one/src/more.rs").unlink()
        self.assert_not_laid(self.checkout, 1, "hns-one/src/more.rs: FAILED open or read")

    def test_a_line_that_is_no_sum(self):
        with open(self.original / "sums", "a") as sums:
            sums.write("not a sum\n")
        self.assert_not_laid(self.checkout, 1, "improperly formatted")

    def test_no_folder_of_that_name(self):
        self.assert_not_laid(self.checkout / "nowhere", 1, "original/sums")

    def test_not_at_hand(self):
        self.assert_not_laid(None, 3, "HNS_RS")


class Sums(unittest.TestCase):
    def test_every_file_that_the_notice_names_has_a_sum(self):
        lines = [line.split() for line in (ORIGINAL / "sums").read_text().splitlines() if not line.startswith("#")]
        named = (ORIGINAL.parent / "NOTICE").read_text().split("\n\n")[2].split()
        self.assertTrue({word for word in named if word.endswith(".rs")} <= {f"crates/{path}" for _, path in lines})


if __name__ == "__main__":
    unittest.main()
