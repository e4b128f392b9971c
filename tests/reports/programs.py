"""Runs a program of the repository in a folder of its own, with the files it reads, and compares the line it writes."""

import os
import subprocess
import tempfile
import unittest
from pathlib import Path

CRATES = Path(__file__).resolve().parents[2] / "crates"

# given as a file's content: a folder of that name stands there
FOLDER = None


class ProgramCase(unittest.TestCase):
    """A case over one program, `program`, which `rt ci`, or `rt run` in its folder, has proved and built."""

    program = ""

    def setUp(self):
        self.built = CRATES / self.program / "out" / self.program
        self.assertTrue(self.built.is_file(), f"{self.program} is not built: rt run in crates/{self.program}")

    def assert_line(self, line, files, before=None, **variables):
        """With these files, by name, the program writes exactly this line, and nothing to its errors. `before` is done
        in its process before it runs, and `variables` stand in its environment."""
        with tempfile.TemporaryDirectory() as folder:
            for name, content in files.items():
                lay(Path(folder) / name, content)
            answer = subprocess.run(
                [str(self.built)],
                cwd=folder,
                capture_output=True,
                timeout=60,
                preexec_fn=before,
                env=dict(os.environ, **variables),
            )
        self.assertEqual((answer.stdout, answer.stderr, answer.returncode), (line.encode() + b"\n", b"", 0))

    def assert_a_failed_write_is_told(self):
        """Where the line cannot be written the exit status says so, and a message why."""
        with tempfile.TemporaryDirectory() as folder, open("/dev/full", "wb") as full:
            given = {"cwd": folder, "stdout": full, "stderr": subprocess.PIPE, "timeout": 60}
            answer = subprocess.run([str(self.built)], **given)
        self.assertEqual(1, answer.returncode)
        self.assertRegex(answer.stderr.decode(), "^Error: ")

    def assert_line_without_input(self, line, files):
        """The same where the program has no standard input, so that the first file that it opens is descriptor 0."""
        self.assert_line(line, files, before=lambda: os.close(0))

    def assert_line_on_failing_reads(self, line, files):
        """The same where each read of a file after the first fails."""
        with tempfile.TemporaryDirectory() as folder:
            loaded = Path(folder) / "failing_read.so"
            source = Path(__file__).with_name("failing_read.c")
            subprocess.run(["cc", "-shared", "-fPIC", "-o", str(loaded), str(source)], check=True)
            self.assert_line(line, files, LD_PRELOAD=str(loaded))


def lay(path, content):
    if content is FOLDER:
        path.mkdir()
    else:
        path.write_bytes(content)
