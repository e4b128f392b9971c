"""Tests of tools/mutate.py: which changes it makes, and where, which of them one run judges, and what the prover's
words mean for each."""

import sys
import tempfile
import unittest
from pathlib import Path

sys.path.insert(0, str(Path(__file__).resolve().parent.parent))

import mutate

SOURCE = """// 1 < 2 stands in a comment
pub const MOST: usize = 10;

pub enum Answer {
    Yes(u8),
    Maybe(u8),
    No,
}

pub fn judge(n: u8) -> Answer
    ensures { result ≡ judged 7 n }
{
    if n < 10 {
        return Answer::Yes(n + 2);
    }
    match other(n) {
        Answer::Yes(_) => Answer::No,
        _ => Answer::No,
    }
}

impl Answer {
    fn is_mark(b: u8) -> bool {
        !named(b"ab") && b == b'-'
    }
}

fn named(s: &[u8]) -> bool {
    s.len() != 0x10
}
"""

JUDGE, IS_MARK, NAMED = "one::part::judge", "one::part::Answer::is_mark", "one::part::named"


ANSWERS = """\
pub returns-then-n-lt10 : goal.returns-then-n-lt10
returns-then-n-lt10 c = c.if-n-lt10.true

pub returns-then-n-lt100 : goal.returns-then-n-lt100
"""
# What the prover says of those answers where `n < 10` has become `n < 11`.
GONE = """\
./proofs/part/judge/Answers.antt:1:27: error: `returns-then-n-lt10`: module `Rattle.one.proofs.part.judge.Goals` has no \
`returns-then-n-lt10` that can be named from here (names in it that begin alike: `returns-then-n-lt100`)
./proofs/part/judge/Answers.antt:2:27: error: `returns-then-n-lt10`: record `Rattle.one.proofs.part.judge.Lts.Then` has \
no field `if-n-lt10` (nearest: .if-n-lt11)
  the fields that can be named here are `before`, `if-n-lt11`, `args`
help: `Goals` has no `returns-then-n-lt10`; rattle asks for `returns-then-n-lt11`, `returns-then-n-lt100`, `returns`
"""


class Tree(unittest.TestCase):
    def setUp(self):
        folder = tempfile.TemporaryDirectory()
        self.addCleanup(folder.cleanup)
        self.root = Path(folder.name)
        self.source = self.root / "crates/one/src/part.rt"
        self.source.parent.mkdir(parents=True)
        self.source.write_text(SOURCE, encoding="utf-8")
        self.mutants = list(mutate.mutants_of(self.root, "one"))

    def first(self, full):
        return next(mutant for mutant in self.mutants if mutant.full == full)


class Changes(Tree):
    def changes(self, full):
        return sorted((m.line, m.old, m.new) for m in self.mutants if m.full == full)

    def test_comparison_operator_constants_and_answer(self):
        expected = [
            (13, "<", "<="),
            (13, "10", "11"),
            (13, "10", "9"),
            (14, "Yes", "Maybe"),
            (14, "+", "-"),
            (14, "2", "1"),
            (14, "2", "3"),
        ]
        self.assertEqual(sorted(expected), self.changes(JUDGE))

    def test_negation_bytes_and_hexadecimal(self):
        self.assertEqual(
            [(24, "!", ""), (24, "&&", "||"), (24, "==", "!="), (24, 'b"ab"', 'b"ac"'), (24, "b'-'", "b'.'")],
            self.changes(IS_MARK),
        )
        self.assertEqual([(29, "!=", "=="), (29, "0x10", "0x11"), (29, "0x10", "0xf")], self.changes(NAMED))

    def test_a_constant_outside_the_functions(self):
        self.assertEqual([(2, "10", "11"), (2, "10", "9")], self.changes(""))

    def test_comments_contracts_and_patterns_stay(self):
        self.assertFalse([mutant for mutant in self.mutants if mutant.line in (1, 11, 17)])


class Rounds(Tree):
    def rounds(self):
        chosen = list(enumerate(self.mutants))
        return [
            [mutant for _, mutant in group] for group in mutate.rounds_of(chosen, mutate.reach_of(self.root, "one"))
        ]

    def test_every_mutant_once(self):
        self.assertEqual(sorted(self.mutants), sorted(mutant for group in self.rounds() for mutant in group))

    def test_no_function_with_one_that_it_calls(self):
        for group in self.rounds():
            self.assertFalse({IS_MARK, NAMED} <= {mutant.full for mutant in group})

    def test_unrelated_functions_together(self):
        self.assertTrue(any({JUDGE, IS_MARK} <= {mutant.full for mutant in group} for group in self.rounds()))

    def test_some_of_each_function(self):
        chosen = mutate.spread(list(enumerate(self.mutants)), 2)
        kept = [mutant.full for _, mutant in chosen]
        self.assertEqual([2, 2, 2, 2], [kept.count(full) for full in (JUDGE, IS_MARK, NAMED, "")])
        self.assertEqual(len(self.mutants), len(mutate.spread(list(enumerate(self.mutants)), 100)))

    def test_named_functions_and_constants_keep_their_numbers(self):
        numbered = list(enumerate(self.mutants))
        self.assertEqual(numbered, mutate.chosen_of(self.root, "one", []))
        some = mutate.chosen_of(self.root, "one", ["named", "MOST"])
        self.assertEqual({"named", "MOST"}, {mutant.function for _, mutant in some})
        self.assertLessEqual(set(some), set(numbered))

    def test_a_constant_alone(self):
        self.assertTrue(all(len(group) == 1 for group in self.rounds() if any(not mutant.full for mutant in group)))


class Verdicts(Tree):
    def both(self):
        return [self.first(JUDGE), self.first(IS_MARK)]

    def test_each_function_has_its_own(self):
        said = f"fn {JUDGE}: not proved\nfn {IS_MARK}: proved\n"
        self.assertEqual(["refused", "ACCEPTED"], mutate.verdicts(self.both(), (said, 1)))

    def test_a_method_of_a_type_of_another_module(self):
        said = f"fn {JUDGE}: proved\nfn one::Answer::is_mark: not proved\n"
        self.assertEqual(["ACCEPTED", "refused"], mutate.verdicts(self.both(), (said, 1)))

    def test_what_was_not_told_apart(self):
        self.assertIsNone(mutate.verdicts(self.both(), ("error: mismatched types", 1)))
        self.assertIsNone(mutate.verdicts(self.both(), None))
        self.assertIsNone(mutate.verdicts(self.both(), (f"fn {JUDGE}: proved\n", 1)))

    def test_one_that_waits_for_another(self):
        said = f"fn {JUDGE}: no proof: it calls `one::other`, which is not proved\nfn {IS_MARK}: not proved\n"
        self.assertIsNone(mutate.verdicts(self.both(), (said, 1)))
        said = f"fn {JUDGE}: no proof: expected answers in ./proofs/part/judge/Answers.antt\nfn {IS_MARK}: proved\n"
        self.assertEqual(["refused", "ACCEPTED"], mutate.verdicts(self.both(), (said, 1)))

    def test_what_only_a_name_refuses(self):
        gone = GONE + f"fn {JUDGE}: not proved\nfn {IS_MARK}: not proved\n"
        self.assertEqual(["by a name", "refused"], mutate.verdicts(self.both(), (gone, 1)))
        self.assertEqual(["by a name"], mutate.verdicts([self.first(JUDGE)], (gone, 1)))
        more = "./proofs/part/judge/Answers.antt:9:4: error: `returns`: `omega`: the goal does not follow\n"
        self.assertEqual(["refused", "refused"], mutate.verdicts(self.both(), (gone + more, 1)))

    def test_one_alone(self):
        alone = [self.first(JUDGE)]
        self.assertEqual(["no program"], mutate.verdicts(alone, ("error: mismatched types", 1)))
        self.assertEqual(["refused"], mutate.verdicts(alone, (f"fn {JUDGE}: proved\nfn {IS_MARK}: not proved\n", 1)))
        self.assertEqual(["no verdict"], mutate.verdicts(alone, (f"fn {JUDGE}: could not tell\n", 3)))
        self.assertEqual(["no verdict"], mutate.verdicts(alone, None))


class Judging(Tree):
    def prover(self, answers):
        prover = mutate.Prover(self.root, "one")
        self.seen = []

        def said():
            self.seen.append(self.source.read_text(encoding="utf-8"))
            return answers.pop(0)

        prover.said = said
        return prover

    def test_the_file_is_put_back(self):
        self.prover([(f"fn {JUDGE}: not proved\n", 1)]).judge([self.first(JUDGE)])
        self.assertIn("if n <= 10", self.seen[0])
        self.assertEqual(SOURCE, self.source.read_text(encoding="utf-8"))

    def test_names_that_a_change_took_away_are_turned(self):
        answers = self.root / "crates/one/proofs/part/judge/Answers.antt"
        answers.parent.mkdir(parents=True)
        answers.write_text(ANSWERS, encoding="utf-8")
        seen = []

        def said(answer):
            seen.append(answers.read_text(encoding="utf-8"))
            return answer

        prover = self.prover([(GONE + f"fn {JUDGE}: not proved\n", 1), (f"fn {JUDGE}: proved\n", 0)])
        inner = prover.said
        prover.said = lambda: said(inner())
        self.assertEqual(["ACCEPTED"], prover.judge([self.first(JUDGE)]))
        self.assertEqual(
            [ANSWERS, ANSWERS.replace("lt10 ", "lt11 ").replace("lt10\n", "lt11\n").replace("lt10.", "lt11.")], seen
        )
        self.assertEqual(ANSWERS, answers.read_text(encoding="utf-8"))

    def test_names_that_stay_away_are_asked_for_once(self):
        prover = self.prover([(GONE + f"fn {JUDGE}: not proved\n", 1)])
        self.assertEqual(["by a name"], prover.judge([self.first(JUDGE)]))

    def test_a_copy_has_the_crates_and_not_what_was_made(self):
        for path in ("crates.txt", "crates/one/out/one.o", "crates/one/proofs/out/Answers.antt"):
            (self.root / path).parent.mkdir(parents=True, exist_ok=True)
            (self.root / path).write_text("")
        with tempfile.TemporaryDirectory() as folder:
            root = mutate.copied(self.root, folder)
            found = sorted(path.relative_to(root).as_posix() for path in root.rglob("*") if path.is_file())
        self.assertEqual(["crates.txt", "crates/one/proofs/out/Answers.antt", "crates/one/src/part.rt"], found)

    def test_one_that_is_accepted_is_judged_alone(self):
        both = [self.first(JUDGE), self.first(IS_MARK)]
        prover = self.prover([(f"fn {JUDGE}: not proved\nfn {IS_MARK}: proved\n", 1), (f"fn {IS_MARK}: proved\n", 0)])
        self.assertEqual(["refused", "ACCEPTED"], mutate.judged(prover, both))
        self.assertNotIn("if n <= 10", self.seen[1])

    def test_halves_where_nothing_is_told(self):
        both = [self.first(JUDGE), self.first(IS_MARK)]
        prover = self.prover(
            [("error: mismatched types", 1), ("error: mismatched types", 1), (f"fn {IS_MARK}: not proved\n", 1)]
        )
        self.assertEqual(["no program", "refused"], mutate.judged(prover, both))


if __name__ == "__main__":
    unittest.main()
