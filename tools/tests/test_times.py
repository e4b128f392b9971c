"""Tests of tools/times.py: whose seconds a module's are, and how they add up."""

import sys
import unittest
from pathlib import Path

sys.path.insert(0, str(Path(__file__).resolve().parent.parent))

import times


class Owners(unittest.TestCase):
    def test_a_part_of_a_function(self):
        self.assertEqual(("store.put_le", "Lts"), times.owner_of("Rattle-words-proofs.store.put_le.Lts.decls.oantt"))
        self.assertEqual(("put_le", "Proof"), times.owner_of("Rattle-words-proofs.put_le.Proof.oantt"))
        self.assertEqual(("put_le", "Lts.View"), times.owner_of("Rattle-words-proofs.put_le.Lts.View.oantt"))

    def test_a_function_of_a_type(self):
        self.assertEqual(("Covenant.read", "Tie"), times.owner_of("Rattle-covenants-proofs.Covenant.read.Tie.oantt"))

    def test_a_file_of_laws(self):
        self.assertEqual(("Over", ""), times.owner_of("Rattle-words-proofs.Over.decls.oantt"))

    def test_the_contract_itself(self):
        self.assertEqual(("put_le", ""), times.owner_of("Rattle-words-specs.contracts.put_le.oantt"))
        self.assertEqual(("put_le", "Key"), times.owner_of("Rattle-words-specs.contracts.put_le.Key.decls.oantt"))

    def test_what_other_crates_see(self):
        self.assertEqual(("Over", ""), times.owner_of("Rattle-words.proofs.Over.oantt"))
        self.assertEqual(("put_le", "Statement"), times.owner_of("Rattle-words.proofs.put_le.Statement.oantt"))


class Seconds(unittest.TestCase):
    WRITTEN = [
        (14.5, "Rattle-words-proofs.put_le.Proof.oantt"),
        (10.0, "Rattle-words-proofs.Over.oantt"),
        (12.0, "Rattle-words-proofs.put_le.Lts.oantt"),
    ]

    def test_what_passed_before_a_file_is_its_own(self):
        owners, parts, known = times.seconds_of(self.WRITTEN, 9.0)
        self.assertEqual({"Over": 0.0, "put_le": 4.5}, dict(owners))
        self.assertEqual({"files": 0.0, "Lts": 2.0, "Proof": 2.5}, dict(parts))
        self.assertEqual(0, known)

    def test_what_was_known_before_has_no_seconds(self):
        owners, parts, known = times.seconds_of(self.WRITTEN, 11.0)
        self.assertEqual({"put_le": 2.5}, dict(owners))
        self.assertEqual({"Lts": 0.0, "Proof": 2.5}, dict(parts))
        self.assertEqual(1, known)


if __name__ == "__main__":
    unittest.main()
