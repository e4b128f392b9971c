"""The builders, held to bytes that document 01 writes out, and the first inputs of fuzz/, which are made of them."""

import subprocess
import sys
import tempfile
import unittest
from pathlib import Path

from formats import NO_COINS, NONE, REVEAL, compact, covenant, output, record, transaction

SEEDS = Path(__file__).resolve().parents[2] / "fuzz" / "seeds"


class Formats(unittest.TestCase):
    def test_compact_sizes_are_the_shortest(self):
        for value, form in (
            (252, "fc"),
            (253, "fdfd00"),
            (2**16 - 1, "fdffff"),
            (2**16, "fe00000100"),
            (2**32 - 1, "feffffffff"),
            (2**32, "ff0000000001000000"),
        ):
            with self.subTest(value=value):
                self.assertEqual(form, compact(value).hex())

    def test_the_document_s_bytes(self):
        self.assertEqual("0000", covenant(NONE).hex())
        self.assertEqual("10000000", transaction([], []).hex())
        self.assertEqual("14000000", NO_COINS.hex())
        reveal = output(covenant(REVEAL), value=0, hash=b"")
        self.assertEqual("10000040" + "00" * 10 + "0400", transaction([], [reveal]).hex())
        self.assertEqual(bytes(13), record())

    def test_the_seeds_are_the_same_on_every_run(self):
        runs = []
        for _ in range(2):
            with tempfile.TemporaryDirectory() as folder:
                subprocess.run([sys.executable, "-B", str(SEEDS), folder], check=True)
                files = [path for path in Path(folder).rglob("*") if path.is_file()]
                runs.append({str(path.relative_to(folder)): path.read_bytes() for path in files})
        self.assertEqual(runs[0], runs[1])
        self.assertTrue(runs[0])


if __name__ == "__main__":
    unittest.main()
