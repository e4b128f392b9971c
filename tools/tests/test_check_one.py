"""Tests of check_one.py: a good tree passes, and each kind of finding is found."""

import unittest

from trees import TreeCase

LIBRARY = """\
ghost use Rattle.std.specs.Prelude.{◌≡◌, ◌≤◌, length};
ghost use Rattle.lib.specs.Sum.{sum, kept, size};

pub fn plain_name(x: u8, size: u8, d: &mut [u8]) -> u8
    ensures value { result ≡ sum x 7 size }
    ensures d_after { d.new ≡ (kept d.old).0 }
{
    x
}

fn private(x: u8) -> u8 {
    x
}

impl Left {
    pub fn same(self) -> u8
        ensures { result ≡ 1 }
    {
        1
    }
}

impl Right {
    pub fn same(self) -> u8
        ensures { result ≡ 2 }
    {
        2
    }
}

pub fn open(x: u8) -> u8
    ensures { result ≤ x }
{
    x
}
"""
THEOREMS = """\
use Rattle.lib.specs.Sum.{sum, kept, size}
-- pub open-one : in a comment it is none
abbrev Keeps : List ℕ → List ℕ → Type 0
Keeps d d' =
    d' ≡ (kept d).0

pub plain-name-one :
    (x n : ℕ) (d : List ℕ) {r r' : ℕ} {e e' : List ℕ} → r ≡ sum x 7 n → Keeps d e → r' ≡ sum x 7 n → Keeps d e'
    → (r ≡ r') × (e ≡ e')
plain-name-one x n d p q p' q' = (p ∙ sym p', q ∙ sym q')

module _ (x : ℕ) where
  pub left-same-one : {r r' : ℕ} → r ≡ 1 → r' ≡ 1 → r ≡ r'
  left-same-one p q = p ∙ sym q

pub right-same-one : {r r' : ℕ} → r ≡ 2 → r' ≡ 2 → r ≡ r'
right-same-one p q = p ∙ sym q
"""
BOUNDARY = """\
ghost use Rattle.lib.specs.Sum.{sum, kept};

#[unsafe(no_mangle)]
pub extern "C" fn plain_name(x: u8, size: u8, d: &mut [u8]) -> u8
    ensures value { result ≡ sum x 7 size }
    ensures d_after { d.new ≡ (kept d.old).0 }
{
    lib::plain_name(x, size, d)
}
"""
EXCEPTIONS = """\
## Results that a contract leaves open

| Function | Ground |
|---|---|
| `lib::open` | any smaller number will do |
"""


class CheckOne(TreeCase):
    script = "check_one.py"
    good = {
        "crates.txt": "lib:\nprogram: lib\n",
        "crates/lib/src/lib.rt": LIBRARY,
        "crates/lib/proofs/One.antt": THEOREMS,
        "crates/program/src/main.rt": "pub fn main() {}\n",
        "docs/EXCEPTIONS.md": EXCEPTIONS,
    }

    def test_good(self):
        self.assert_passes({}, "results: 4 public functions, 0 findings")

    def test_theorem_missing(self):
        self.assert_finds(
            {"crates/lib/proofs/One.antt": THEOREMS.replace("plain-name-one", "other-one")},
            "crates/lib/src/lib.rt:4: lib::plain_name has no theorem plain-name-one in crates/lib/proofs/One.antt",
        )

    def test_one_of_two_of_a_name(self):
        self.assert_finds(
            {"crates/lib/proofs/One.antt": THEOREMS.replace("right-same-one", "same-one")},
            "crates/lib/src/lib.rt:24: lib::Right::same has no theorem right-same-one in crates/lib/proofs/One.antt",
        )

    def test_underscores_in_the_name(self):
        self.assert_passes(
            {"crates/lib/proofs/One.antt": THEOREMS.replace("plain-name-one", "plain_name_one")},
            "results: 4 public functions, 0 findings",
        )

    def test_not_public(self):
        status, lines = self.run_check({"crates/lib/proofs/One.antt": THEOREMS.replace("pub plain", "plain")})
        self.assertEqual(status, 1)
        self.assertIn("has no theorem plain-name-one", lines[0])

    def test_no_file(self):
        status, lines = self.run_check({"crates/lib/proofs/One.antt": None})
        self.assertEqual((status, len(lines)), (1, 4))

    def test_contract_without_a_clause(self):
        self.assert_finds(
            {
                "crates/lib/src/lib.rt": LIBRARY.replace("    ensures d_after { d.new ≡ (kept d.old).0 }\n", ""),
            },
            "crates/lib/src/lib.rt:4: lib::plain_name and plain-name-one: the contract lacks kept",
            "crates/lib/src/lib.rt:4: lib::plain_name and plain-name-one: 1 equations in the contract, 6 in the theorem",
        )

    def test_theorem_that_says_nothing(self):
        self.assert_finds(
            {"crates/lib/proofs/One.antt": THEOREMS.replace("{r r' : ℕ} → r ≡ 2 → r' ≡ 2 → r ≡ r'", "(r : ℕ) → r ≡ r")},
            "crates/lib/src/lib.rt:24: lib::Right::same and right-same-one: the theorem lacks 2",
            "crates/lib/src/lib.rt:24: lib::Right::same and right-same-one: 1 equations in the contract, 1 in the theorem",
        )

    def test_theorem_of_another_definition(self):
        self.assert_finds(
            {"crates/lib/proofs/One.antt": THEOREMS.replace("sum x 7 n", "size x 7 n")},
            "crates/lib/src/lib.rt:4: lib::plain_name and plain-name-one: the theorem lacks sum",
            "crates/lib/src/lib.rt:4: lib::plain_name and plain-name-one: the contract lacks size",
        )

    def test_clause_of_another_number(self):
        self.assert_finds(
            {"crates/lib/src/lib.rt": LIBRARY.replace("result ≡ 2", "result ≡ 3")},
            "crates/lib/src/lib.rt:24: lib::Right::same and right-same-one: the theorem lacks 3",
        )

    def test_clauses_of_memory(self):
        starred = "    ensures* d_after { ⌜ d.new ≡ (kept d.old).0 ⌝ }\n"
        self.assert_passes(
            {"crates/lib/src/lib.rt": LIBRARY.replace("    ensures d_after { d.new ≡ (kept d.old).0 }\n", starred)},
            "results: 4 public functions, 0 findings",
        )

    def test_definitions_behind_a_module_s_name(self):
        brought = "use Rattle.lib.specs.Sum.{kept}\nuse Rattle.lib.specs.Sum as sums\n"
        theorems = brought + THEOREMS[THEOREMS.index("-- pub") :].replace("sum x", "sums.sum x")
        self.assert_passes({"crates/lib/proofs/One.antt": theorems}, "results: 4 public functions, 0 findings")
        self.assert_finds(
            {"crates/lib/proofs/One.antt": theorems.replace("sums.sum x", "sums.size x")},
            "crates/lib/src/lib.rt:4: lib::plain_name and plain-name-one: the theorem lacks sum",
            "crates/lib/src/lib.rt:4: lib::plain_name and plain-name-one: the contract lacks size",
        )

    def test_fields_are_no_definitions(self):
        self.assert_passes(
            {"crates/lib/src/lib.rt": LIBRARY.replace("d.new ≡", "d.new.sum.size ≡")},
            "results: 4 public functions, 0 findings",
        )

    def test_words_of_the_library(self):
        self.assert_passes(
            {"crates/lib/src/lib.rt": LIBRARY.replace("{ result ≡ 1 }", "{ length result ≡ 1 }")},
            "results: 4 public functions, 0 findings",
        )

    def boundary(self, text=BOUNDARY, mark=" staticlib"):
        return {"crates.txt": f"lib:\nbound{mark}: lib\nprogram: lib\n", "crates/bound/src/lib.rt": text}

    def test_static_library(self):
        self.assert_passes(self.boundary(), "results: 5 public functions, 0 findings")

    def test_static_library_that_says_less(self):
        self.assert_finds(
            self.boundary(BOUNDARY.replace("    ensures d_after { d.new ≡ (kept d.old).0 }\n", "")),
            "crates/bound/src/lib.rt:4: bound::plain_name and plain-name-one: the contract lacks kept",
            "crates/bound/src/lib.rt:4: bound::plain_name and plain-name-one: 1 equations in the contract, 6 in the theorem",
        )

    def test_function_of_a_static_library_alone(self):
        self.assert_finds(
            self.boundary(BOUNDARY.replace("fn plain_name", "fn plainer")),
            "crates/bound/src/lib.rt:4: bound::plainer has no theorem plainer-one in crates/bound/proofs/One.antt",
        )

    def test_another_library_has_its_own(self):
        self.assert_finds(
            self.boundary(mark=""),
            "crates/bound/src/lib.rt:4: bound::plain_name has no theorem plain-name-one in crates/bound/proofs/One.antt",
        )

    def test_stale_exception(self):
        self.assert_finds(
            {"crates/lib/proofs/One.antt": THEOREMS + "\npub open-one : (x : ℕ) → x ≡ x\nopen-one x = refl\n"},
            "docs/EXCEPTIONS.md:1: stale: lib::open has its theorem open-one",
        )

    def test_exception_for_nothing(self):
        self.assert_finds(
            {"docs/EXCEPTIONS.md": EXCEPTIONS + "| `lib::gone` | it is gone |\n"},
            "docs/EXCEPTIONS.md:1: stale: lib::gone is no public function of a library",
        )


if __name__ == "__main__":
    unittest.main()
