"""Tests of check_papers.py: a good tree passes, and each kind of finding is found."""

from trees import TreeCase

CLAIMS = """\
# Claims

Text outside a table may say `anything`.

| Claim | Where | Not |
|---|---|---|
| a read is the paper's | `reader/specs/Wire.antt:le` `reader/specs/Wire.antt:pick` | `reader/must-fail/cut.edit` |
| its type | `reader/specs/Wire.antt:Outcome` | not yet |
| its cases | `reader/specs/Wire.antt:ok`, `reader/specs/Wire.antt:maybe-not'` | not yet |
| its laws | `reader/proofs/read/le_at/Answers.antt:Laws` `reader/proofs/read/le_at/Answers.antt:back` | not yet |
| its code | `reader/src/read.rt:le_at` `reader/src/read.rt:WIDEST` | |
| its own types | `reader/src/read.rt:Cursor` `reader/src/read.rt:Read` | |
| its methods | `reader/src/read.rt:Cursor::finish` | `crates/reader/must-fail/long.edit` |
| its papers | `docs/REFUSALS.md` `crates/reader` `README.md` | not yet |
"""

SPECIFICATION = """\
use Rattle.std.specs.Prelude.{ℕ}
-- gone : ℕ
pub data Outcome (A : Type 0) : Type 0 where
  ok : A → ℕ → Outcome A
  maybe-not' or-else : Outcome A

unfoldable pub le : List ℕ → ℕ
le s =
    then (one s)
    let inner : ℕ = 0 in inner

abbrev pub pick {ℓ} : {X : Type ℓ} → (Bool → (X →
    bound : X)) → X
"""

PROOF = """\
pub record Laws
    (s : List ℕ) : Type 0 where
  pub back : bytes (le s) ≡ s
"""

CODE = """\
pub const WIDEST: usize = 8;

pub struct Cursor {
    pub position: usize,
}

pub enum Read {
    Value(u8),
}

// fn gone() {}
fn le_at(s: &[u8]) -> u64 {
    0
}

impl Cursor {
    pub fn finish(self) -> bool {
        true
    }
}
"""

REFUSAL_CODE = """\
// Why bytes are refused.
pub enum Refusal {
    // cut off
    UnexpectedEnd { offset: usize, needed: usize },
    NoMore,
    Field {
        side: u8,
        name: [u8; 4],
    },
    Pair(u8, u8),
}
"""

REFUSALS = """\
# Refusals

| number | name | carries | when |
|---|---|---|---|
| 1 | `UnexpectedEnd` | `offset`, `needed` | the bytes are cut off |
| 2 | `NoMore` | nothing | nothing is left, as `Pair` says |
| 3 | `Field` | `side`, `name` | it is read |
| 4 | `Pair` | `0`, `1` | two |
"""

SUMMARY = "papers: 8 papers, 17 references, 2 must-fail edits, 4 refusals, 0 constants"


class CheckPapers(TreeCase):
    script = "check_papers.py"
    good = {
        "README.md": "A reader of a{0}b, of ..{1}b and of ${{X}}{2}b.\n".format(
            *("/" + folder + "/" for folder in ("tmp", "opt", "home"))
        ),
        "NOTICE": "It quotes " + "/" + "home/someone.\n",
        "docs/CLAIMS.md": CLAIMS,
        "docs/DECISIONS.md": "Decisions\n",
        "docs/DIFFERENCES.md": "Differences\n",
        "docs/EXCEPTIONS.md": "Exceptions\n",
        "docs/REFUSALS.md": REFUSALS,
        "docs/PROVING.md": "Proving\n",
        "crates/reader/specs/Wire.antt": SPECIFICATION,
        "crates/reader/proofs/read/le_at/Answers.antt": PROOF,
        "crates/reader/src/read.rt": CODE,
        "crates/reader/must-fail/cut.edit": "# cut\n",
        "crates/reader/must-fail/long.edit": "# long\n",
        "crates/refusal/src/lib.rt": REFUSAL_CODE,
        "samples/data": b"\0 " + b"/" + b"tmp/binary",
    }

    def test_good_tree(self):
        self.assert_passes({}, f"{SUMMARY}, 0 findings")

    def test_refusals_not_written_yet(self):
        self.assert_passes(
            {"crates/refusal/src/lib.rt": None},
            "note: crates/refusal/src/lib.rt is not there yet: the refusals were not compared with it",
            f"{SUMMARY}, 0 findings",
        )

    def test_paper_missing_or_empty(self):
        for name in ("DECISIONS", "DIFFERENCES", "EXCEPTIONS", "PROVING"):
            with self.subTest(name):
                self.assert_finds({f"docs/{name}.md": None}, f"docs/{name}.md:1: missing")
                self.assert_finds({f"docs/{name}.md": " \n"}, f"docs/{name}.md:1: empty")

    def test_paper_that_others_rest_on_missing(self):
        for path in ("README.md", "NOTICE", "docs/CLAIMS.md", "docs/REFUSALS.md"):
            with self.subTest(path):
                status, lines = self.run_check({path: None})
                self.assertEqual((status, lines[0]), (1, f"{path}:1: missing"))

    def test_references(self):
        wire, proof, code = (
            "crates/reader/specs/Wire.antt",
            "crates/reader/proofs/read/le_at/Answers.antt",
            "crates/reader/src/read.rt",
        )
        for reference, wrong in (
            ("reader/specs/Gone.antt:le", "no file crates/reader/specs/Gone.antt"),
            ("reader/specs/Wire.antt:gone", f"{wire} does not declare gone"),
            ("reader/specs/Wire.antt:then", f"{wire} does not declare then"),
            ("reader/specs/Wire.antt:inner", f"{wire} does not declare inner"),
            ("reader/specs/Wire.antt:bound", f"{wire} does not declare bound"),
            ("reader/specs/Wire.antt:maybe-not", f"{wire} does not declare maybe-not"),
            ("reader/proofs/read/le_at/Answers.antt:gone", f"{proof} does not declare gone"),
            ("reader/src/gone.rt:le_at", "no file crates/reader/src/gone.rt"),
            ("reader/src/read.rt:gone", f"{code} does not declare gone"),
            ("reader/src/read.rt:le", f"{code} does not declare le"),
            ("reader/src/read.rt:Cursor::le_at", f"{code} does not declare Cursor::le_at"),
            ("reader/src/read.rt:Read::finish", f"{code} does not declare Read::finish"),
            ("reader/must-fail/gone.edit", "no file crates/reader/must-fail/gone.edit"),
            ("docs/GONE.md", "no file docs/GONE.md"),
            ("GONE.md", "not a reference: GONE.md"),
            ("not yet", "not a reference: not yet"),
            ("le", "not a reference: le"),
            ("docs/../README.md", "not a reference: docs/../README.md"),
            ("/docs/REFUSALS.md", "not a reference: /docs/REFUSALS.md"),
        ):
            with self.subTest(reference):
                claims = f"{CLAIMS}| one more | `{reference}` |\n"
                self.assert_finds({"docs/CLAIMS.md": claims}, f"docs/CLAIMS.md:15: {wrong}")

    def test_edit_without_claim(self):
        self.assert_finds(
            {"crates/reader/must-fail/free.edit": ""},
            "crates/reader/must-fail/free.edit:1: no row of docs/CLAIMS.md names this edit",
        )

    def test_edit_named_outside_a_table(self):
        self.assert_finds(
            {
                "crates/reader/must-fail/free.edit": "",
                "docs/CLAIMS.md": f"{CLAIMS}\nAlso `reader/must-fail/free.edit`.\n",
            },
            "crates/reader/must-fail/free.edit:1: no row of docs/CLAIMS.md names this edit",
        )

    def assert_refusals_fail(self, old, new, *findings):
        self.assertIn(old, REFUSALS)
        changes = {"docs/REFUSALS.md": REFUSALS.replace(old, new)}
        self.assert_finds(changes, *(f"docs/REFUSALS.md:{finding}" for finding in findings))

    def test_refusal_number(self):
        self.assert_refusals_fail("| 3 |", "| 4 |", "7: row 3 has the number 4")

    def test_refusal_without_backticks(self):
        self.assert_refusals_fail("| `NoMore`", "| NoMore", "6: row 2 has no name in backticks")

    def test_refusal_of_another_name(self):
        self.assert_refusals_fail("| `NoMore`", "| `Nomore`", "6: Nomore stands where the code has NoMore")

    def test_refusal_missing(self):
        self.assert_refusals_fail("| 4 | `Pair` | `0`, `1` | two |\n", "", "7: no row 4 for Pair")

    def test_refusal_too_many(self):
        self.assert_refusals_fail(
            "| two |\n", "| two |\n| 5 | `More` | nothing | |\n", "9: More is past the last refusal of the code"
        )

    def test_refusal_carries(self):
        wrong = "carries offset, needed, and the row says otherwise"
        self.assert_refusals_fail("`offset`, `needed`", "`needed`, `offset`", f"5: UnexpectedEnd {wrong}")
        self.assert_refusals_fail("`offset`, `needed`", "nothing", f"5: UnexpectedEnd {wrong}")
        self.assert_refusals_fail("| nothing |", "| |", "6: NoMore carries nothing, and the row says otherwise")
        self.assert_refusals_fail("| nothing |", "| `side` |", "6: NoMore carries nothing, and the row says otherwise")

    def test_refusals_without_table(self):
        self.assert_finds({"docs/REFUSALS.md": "Refusals\n"}, "docs/REFUSALS.md:1: no table of refusals")

    def test_refusal_code_without_enum(self):
        self.assert_finds({"crates/refusal/src/lib.rt": "\n"}, "crates/refusal/src/lib.rt:1: no enum Refusal")

    def test_header_without_its_constants(self):
        header = "bindings/c/turgamysk.h"
        self.assert_finds({header: "\n"}, f"{header}:1: no block of constants between its marks")

    def test_machine_folder(self):
        # Put together here, so that this file names no such folder itself.
        folders = ["/" + name + "/somewhere" for name in ("work", "farm", "tmp", "opt", "root", "home")]
        starts = ["", "see ", "(", "`", "file://", "PATH="]
        self.assert_finds(
            {"samples/run.sh": "".join(f"{start}{folder}\n" for start, folder in zip(starts, folders))},
            *(f"samples/run.sh:{line}: names a machine's folder: {folder}" for line, folder in enumerate(folders, 1)),
        )
