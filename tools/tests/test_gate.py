"""Tests of the gate's closing lines: .ci/run in a small repository, where every step but the laying of the original is
a stand-in."""

import hashlib
import os
import shutil
import subprocess
import tempfile
import unittest
from pathlib import Path

HOME = Path(__file__).resolve().parents[2]
PROOFS = "7 passed, 0 failed"
OK = "rt: ok; handles allowed: none; must-fail edits: 3 refused; every proof and must-fail edit was done in this run"
KIT = 'sed -n "s/^kit_known=.\\(.*\\).$/\\1/p" .ci/run'


def prover(*lines, status=0, version=KIT):
    """A stand-in for rt that prints these lines for `rt ci`, without any other word, and for nothing else but its
    version."""
    said = "; ".join(f'echo "{line}"' for line in lines)
    return f'case "$*" in ci) {said}; exit {status} ;; version) {version} ;; *) exit 9 ;; esac'


COMMANDS = {
    "rt": prover(OK, PROOFS),
    "cargo": "echo cargo 99.0.0",
    "python3": "",
    "cc": "",
    "make": "",
    "pkg-config": "",
    "shellcheck": "",
    "black": "",
}
STEPS = {
    "bindings/build": "",
    "bindings/test": "echo bindings",
    "differential/run": "echo compared",
    "differential/record": "echo recorded",
}


class Gate(unittest.TestCase):
    def setUp(self):
        folder = tempfile.TemporaryDirectory()
        self.addCleanup(folder.cleanup)
        self.root = Path(folder.name) / "repository"
        (self.root / ".ci").mkdir(parents=True)
        shutil.copy(HOME / ".ci" / "run", self.root / ".ci")
        shutil.copytree(HOME / "original", self.root / "original")
        for name, text in {**STEPS, **{f"bin/{name}": text for name, text in COMMANDS.items()}}.items():
            self.write(name, f"#!/bin/sh\n{text}\n")

    def write(self, name, text):
        path = self.root / name
        path.parent.mkdir(parents=True, exist_ok=True)
        path.write_text(text)
        path.chmod(0o755)

    def run_gate(self, original=None):
        environment = {name: value for name, value in os.environ.items() if name != "HNS_RS"}
        environment["PATH"] = f"{self.root / 'bin'}:{environment['PATH']}"
        if original:
            environment["HNS_RS"] = str(original)
        answer = subprocess.run([str(self.root / ".ci" / "run")], env=environment, capture_output=True, text=True)
        return answer.returncode, answer.stdout.splitlines()

    def lay_down(self, content):
        """A checkout of one file; original/sums is made to have the sum of the word "original" for it."""
        checkout = self.root.parent / "checkout"
        (checkout / "crates" / "hns-one").mkdir(parents=True)
        (checkout / "crates" / "hns-one" / "lib.rs").write_text(content)
        pinned = hashlib.sha256(b"original").hexdigest()
        (self.root / "original" / "sums").write_text(f"{pinned}  hns-one/lib.rs\n")
        return checkout

    def test_the_original_at_hand(self):
        status, lines = self.run_gate(self.lay_down("original"))
        self.assertEqual((0, ["compared", "recorded", PROOFS]), (status, lines[-3:]))

    def test_the_original_not_at_hand(self):
        status, lines = self.run_gate()
        self.assertEqual((0, PROOFS), (status, lines[-1]))
        self.assertRegex(lines[-2], "^the comparison with the original was left out.*HNS_RS$")
        self.assertNotIn("compared", lines)

    def test_files_of_other_sums(self):
        status, lines = self.run_gate(self.lay_down("another"))
        self.assertEqual(1, status)
        self.assertNotIn(PROOFS, lines)

    def test_no_folder_of_that_name(self):
        self.assertEqual((1, []), self.run_gate(self.root / "nowhere"))

    def test_nothing_is_laid_before_the_proofs(self):
        self.write("bin/rt", "#!/bin/sh\n" + prover("$(ls)", OK, PROOFS) + "\n")
        status, lines = self.run_gate(self.lay_down("original"))
        self.assertEqual((0, "bin bindings differential original"), (status, " ".join(lines[: lines.index(OK)])))

    def test_proofs_that_fail(self):
        self.write("bin/rt", "#!/bin/sh\n" + prover("6 passed, 1 failed", status=1) + "\n")
        self.assertEqual((1, ["6 passed, 1 failed"]), self.run_gate())

    def test_bad_edits(self):
        for said in ("3 refused, 1 bad", "3 refused, 2 of them only by a limit, 10 bad"):
            with self.subTest(said):
                self.write("bin/rt", "#!/bin/sh\n" + prover(OK.replace("3 refused", said), PROOFS) + "\n")
                status, lines = self.run_gate()
                self.assertEqual(1, status)
                self.assertRegex(lines[-1], "^a must-fail edit is bad")
                self.assertNotIn("bindings", lines)

    def test_edits_that_a_limit_refuses(self):
        said = OK.replace("3 refused", "3 refused, 2 of them only by a limit")
        self.write("bin/rt", "#!/bin/sh\n" + prover(said, PROOFS) + "\n")
        status, lines = self.run_gate()
        self.assertEqual((0, PROOFS), (status, lines[-1]))

    def test_no_word_of_the_edits(self):
        self.write("bin/rt", "#!/bin/sh\n" + prover(PROOFS) + "\n")
        status, lines = self.run_gate()
        self.assertEqual(1, status)
        self.assertRegex(lines[-1], "^rt ci has not said")

    def test_another_kit(self):
        self.write("bin/rt", "#!/bin/sh\n" + prover(OK, PROOFS, version="echo another") + "\n")
        status, lines = self.run_gate()
        self.assertEqual((0, PROOFS), (status, lines[-1]))
        self.assertRegex(lines[0], "^the Rattle kit here is another one .*: another in place of rattle-kit-")

    def test_a_step_that_fails(self):
        self.write("bindings/test", "#!/bin/sh\nexit 1\n")
        status, lines = self.run_gate()
        self.assertEqual((1, PROOFS), (status, lines[-1]))


if __name__ == "__main__":
    unittest.main()
