"""Small trees in a temporary folder, on which the checks are run as the gate runs them."""

import subprocess
import sys
import tempfile
import unittest
from pathlib import Path

TOOLS = Path(__file__).resolve().parent.parent


class TreeCase(unittest.TestCase):
    """A case with a tree that passes, `good`, by the path of each file its text, and the script that is tried on it,
    with the words before the tree's root."""

    script = ""
    words = ()
    good = {}

    def setUp(self):
        folder = tempfile.TemporaryDirectory()
        self.addCleanup(folder.cleanup)
        self.root = Path(folder.name)

    def run_check(self, changes):
        """Runs the check on the good tree with changes, where None leaves a file out. Returns the status and the
        lines."""
        for path, text in {**self.good, **changes}.items():
            file = self.root / path
            file.parent.mkdir(parents=True, exist_ok=True)
            if text is None:
                file.unlink(missing_ok=True)
            else:
                file.write_bytes(text if isinstance(text, bytes) else text.encode())
        command = [sys.executable, "-B", str(TOOLS / self.script), *self.words, str(self.root)]
        answer = subprocess.run(command, capture_output=True, text=True, encoding="utf-8")
        self.assertEqual(answer.stderr, "")
        return answer.returncode, answer.stdout.splitlines()

    def assert_passes(self, changes, *lines):
        """The tree passes, and the check prints these lines."""
        self.assertEqual(self.run_check(changes), (0, list(lines)))

    def assert_finds(self, changes, *findings):
        """The tree fails, by these findings and no other."""
        status, lines = self.run_check(changes)
        self.assertEqual(lines[:-1], list(findings))
        self.assertRegex(lines[-1], rf"^\w+: .*, {len(findings)} findings$")
        self.assertEqual(status, 1)
