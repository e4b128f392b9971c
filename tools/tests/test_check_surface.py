"""Tests of check_surface.py: a good tree passes, and each kind of finding is found."""

import shutil
import subprocess
import unittest

from trees import TreeCase

LIBRARY = """\
// A library; this comment has a brace { and a pub fn of no_one().
pub mod inner;
ghost use Rattle.std.specs.Prelude.{◌≡◌, ◌<◌};

pub struct Place {
    pub at: usize,
}

pub fn plain(x: u8) -> u8
    ensures { result ≡ x }
{
    x
}

pub fn named_and_many<'a>(
    s: &'a [u8], // the bytes {
    n: [u8; 4],
) -> [u8; 4]
    ghost count: { ℕ }
    ensures content { result ≡ of {A = ℕ} (record { 0 = count }) }
    ensures
        same
        {
            result ≡ result
        }
{
    let brace = b"}{\\"";
    let (open, close) = ('{', '\\'');
    n
}

#[unsafe(no_mangle)]
pub extern "C" fn exported(x: u8) -> u8 ensures { result ≡ x } { x }

fn private(x: u8) -> u8
    requires { x < 9 }
{
    x
}

pub(crate) fn shared(x: u8) -> u8
    requires { x < 9 }
{
    x
}

pub fn asking(x: u8) -> u8
    requires { x < 9 }
    ensures { result ≡ x }
{
    x
}

impl<'a> Place<'a> {
    fn closing(self) -> u8 {
        b'}'
    }

    pub fn asking(self) -> usize
        requires { self.at < 9 }
        ensures { result ≡ self.at }
    {
        self.at
    }
}

pub mod inline {
    pub fn asking(x: u8) -> u8
        requires { x < 9 }
        ensures { result ≡ x }
    {
        x
    }
}
"""

MODULE = """\
pub fn asking(x: u8) -> u8
    requires { x < 9 }
    ensures { result ≡ x }
{
    x
}

impl crate::Place {
    pub fn asking(self) -> usize
        requires { self.at < 9 }
        ensures { result ≡ self.at }
    {
        self.at
    }
}
"""

EXCEPTIONS = """\
# Exceptions

## Public functions with a requires

| Function | Why |
|---|---|
| `reader::asking` | its callers all know |
| `reader::Place::asking` \\| `reader::inline::asking` | so do these, unlike `reader::plain` |
| `reader::inner::asking` `reader::inner::Place::asking` | and these |
| `reader::inner::deeper::Place::asking` | and this |

## Others

| Function | Why |
|---|---|
| `reader::no_such_function` | it needs no function here |
"""

SPECIFICATION = """\
-- no axiom, no postulate and no ? is here
{- nor -- here: axiom -}
pub first : List ℕ → Option ℕ
first s = getElem? s 0 -- axiom ?
pub no-axiom : Text
no-axiom = "axiom ?"
"""

BAD_FUNCTION = "pub fn bare(x: u8) -> u8 {\n    x\n}\n"
ASKING_FUNCTION = "pub fn ask(x: u8)\n    requires { x < 9 }\n    ensures { x ≡ x }\n{\n}\n"
CITING = """\
ghost use Rattle.std.specs.Prelude.{◌≡◌, ◌<◌};
ghost use Rattle.reader.specs.%s.{%s};

pub fn cited(turned: u8) -> u8
    ensures { first result ≡ steps (turned at result.filled) } // behind
{
    x
}

fn private(x: u8) -> u8
    ensures { steps result ≡ inner x }
{
    x
}
"""
UNPLACED = "not below src/, specs/ or proofs/ of a listed crate"


class CheckSurface(TreeCase):
    script = "check_surface.py"
    good = {
        "crates.txt": "# the crates\nreader: # a library\nteller: reader io\n",
        "crates/reader/src/lib.rt": LIBRARY,
        "crates/reader/src/inner.rt": MODULE,
        "crates/reader/src/inner/deeper.rt": MODULE[MODULE.index("impl") :],
        "crates/reader/specs/First.antt": SPECIFICATION,
        "crates/reader/proofs/plain/Answers.antt": "pub returns : goal.returns\nreturns c = search rules\n",
        "crates/teller/src/main.rt": "pub fn told(x: u8) -> u8 {\n    x\n}\n\nfn main() {\n}\n",
        "target/copy.rt": "made, and so not looked at",
        "docs/EXCEPTIONS.md": EXCEPTIONS,
    }

    def assert_finds_in_library(self, text, *findings):
        """A further file of the library has these findings, each given by its line and what is wrong."""
        path = "crates/reader/src/more.rt"
        self.assert_finds({path: text}, *(f"{path}:{finding}" for finding in findings))

    def test_good_tree(self):
        self.assert_passes({}, "surface: 1 libraries, 9 public functions, 0 findings")

    def test_crates_file_missing(self):
        status, lines = self.run_check({"crates.txt": None})
        self.assertEqual((status, lines[0]), (1, "crates.txt:1: missing"))

    def test_crates_line_malformed(self):
        self.assert_finds(
            {"crates.txt": "reader:\nteller: reader\nlost reader\n"}, "crates.txt:3: not of the form NAME: DEP DEP .."
        )

    def test_crates_line_of_a_static_library(self):
        self.assert_passes(
            {"crates.txt": "reader staticlib:\nteller backend=llvm status=3: reader\n"},
            "surface: 1 libraries, 9 public functions, 0 findings",
        )
        self.assert_finds(
            {"crates.txt": "reader:\nteller: reader\nlost reader: teller\n"},
            "crates.txt:3: not of the form NAME: DEP DEP ..",
        )

    def test_source_outside_the_crates(self):
        self.assert_finds({"notes/try.rt": ""}, f"notes/try.rt:1: {UNPLACED}")

    def test_source_beside_the_folders_of_a_crate(self):
        self.assert_finds({"crates/reader/Loose.antt": ""}, f"crates/reader/Loose.antt:1: {UNPLACED}")
        self.assert_finds(
            {"crates/reader/Loose.antt": None, "crates/reader/old/lib.rt": ""},
            f"crates/reader/old/lib.rt:1: {UNPLACED}",
        )

    def test_folder_not_listed(self):
        self.assert_finds(
            {"crates/lost/src/lib.rt": ""},
            f"crates/lost/src/lib.rt:1: {UNPLACED}",
            "crates/lost:1: not listed in crates.txt",
        )

    def test_folder_missing(self):
        self.assert_finds({"crates.txt": "reader:\nteller:\n\nlost:\n"}, "crates.txt:4: lost has no folder in crates/")

    def test_function_without_ensures(self):
        self.assert_finds_in_library("\n" + BAD_FUNCTION, "2: reader::more::bare has no ensures")

    def test_method_without_ensures(self):
        self.assert_finds_in_library(
            f"impl Place {{\n{BAD_FUNCTION}}}\n", "2: reader::more::Place::bare has no ensures"
        )

    def test_method_of_a_type_with_bounds(self):
        self.assert_finds_in_library(
            f"impl<R: Into<u8>> other::Shape for Place<R> {{\n{BAD_FUNCTION}}}\n",
            "2: reader::more::Place::bare has no ensures",
        )

    def test_function_that_takes_an_impl(self):
        self.assert_finds_in_library(
            "pub fn ask(rt: &impl Print) {\n}\n\n" + BAD_FUNCTION,
            "1: reader::more::ask has no ensures",
            "4: reader::more::bare has no ensures",
        )

    def test_exported_function_without_ensures(self):
        self.assert_finds_in_library(
            BAD_FUNCTION.replace("fn", 'extern "C" fn'), "1: reader::more::bare has no ensures"
        )

    def test_function_with_lifetime_without_ensures(self):
        self.assert_finds_in_library(
            BAD_FUNCTION.replace("bare(", "bare<'a, 'b>("), "1: reader::more::bare has no ensures"
        )

    def test_function_of_inline_module_without_ensures(self):
        self.assert_finds_in_library(f"mod own {{\n{BAD_FUNCTION}}}\n", "2: reader::more::own::bare has no ensures")

    def test_ensures_in_a_comment(self):
        self.assert_finds_in_library(
            "pub fn bare(x: u8) -> u8\n    // ensures { result ≡ x }\n{\n    x\n}\n",
            "1: reader::more::bare has no ensures",
        )

    def test_ensures_of_the_next_function(self):
        self.assert_finds_in_library(
            BAD_FUNCTION + ASKING_FUNCTION,
            "1: reader::more::bare has no ensures",
            "4: reader::more::ask has a requires, and docs/EXCEPTIONS.md does not list it",
        )

    def test_requires_without_exception(self):
        self.assert_finds_in_library(
            ASKING_FUNCTION, "1: reader::more::ask has a requires, and docs/EXCEPTIONS.md does not list it"
        )

    def test_requires_of_a_public_traits_method(self):
        self.assert_finds_in_library(
            "pub trait Asking {\n    fn ask(x: u8) -> u8\n        requires { x < 9 }\n        ensures { result ≡ x };\n}\n",
            "2: reader::more::Asking::ask has a requires, and docs/EXCEPTIONS.md does not list it",
        )

    def test_method_of_a_private_trait(self):
        self.assert_passes(
            {"crates/reader/src/more.rt": "trait Bare {\n    fn bare(x: u8) -> u8;\n}\n"},
            "surface: 1 libraries, 9 public functions, 0 findings",
        )

    def test_requires_alone(self):
        self.assert_finds_in_library(
            "pub fn ask(x: u8)\n    requires low { x < 9 }\n{\n}\n",
            "1: reader::more::ask has no ensures",
            "1: reader::more::ask has a requires, and docs/EXCEPTIONS.md does not list it",
        )

    def test_exception_outside_its_section(self):
        self.assert_finds(
            {
                "crates/reader/src/more.rt": ASKING_FUNCTION,
                "docs/EXCEPTIONS.md": EXCEPTIONS + "| `reader::more::ask` | named in passing |\n",
            },
            "crates/reader/src/more.rt:1: reader::more::ask has a requires, and docs/EXCEPTIONS.md does not list it",
        )

    def test_clause_without_end(self):
        self.assert_finds_in_library(
            "pub fn bare(x: u8) -> u8\n    ensures { result ≡ x\n{\n    x\n}\n",
            "1: reader::more::bare: where its clauses end and its body begins cannot be read",
        )

    def assert_stale(self, name, finding):
        row = "| `reader::inner::deeper::Place::asking` | and this |\n"
        exceptions = EXCEPTIONS.replace(row, f"{row}| `{name}` | a ground |\n")
        self.assert_finds({"docs/EXCEPTIONS.md": exceptions}, f"docs/EXCEPTIONS.md:11: stale: {finding}")

    def test_exception_of_no_function(self):
        self.assert_stale("reader::gone", "reader::gone is no public function of a library")

    def test_exception_of_private_function(self):
        self.assert_stale("reader::private", "reader::private is no public function of a library")

    def test_exception_without_requires(self):
        self.assert_stale("reader::plain", "reader::plain has no requires any more")

    def test_assumptions_and_holes(self):
        path = "crates/reader/proofs/plain/Answers.antt"
        for text, token in (
            ("axiom pub easy : Easy", "axiom"),
            ("postulate easy : Easy", "postulate"),
            ("easy = f (?) -- left", "?"),
            ("easy = ?later", "?later"),
            ("easy = {! search !}", "{!"),
            ("easy = a--?b c {- -- -} ?", "?"),
        ):
            with self.subTest(text):
                self.assert_finds({path: f"-- a proof\n{text}\n"}, f"{path}:2: assumed or left open: {token}")

    def test_positions_of_the_code(self):
        for text, position in (
            ("-- src/lib.rt:12:5", "src/lib.rt:12:5"),
            ("    -- src/deeper/part.rt:3", "src/deeper/part.rt:3"),
            ("returns c = search rules -- at crates/reader/src/lib.rt:7:1", "crates/reader/src/lib.rt:7:1"),
        ):
            for path in ("crates/reader/proofs/plain/Answers.antt", "crates/reader/specs/First.antt"):
                with self.subTest(text=text, path=path):
                    self.assert_finds({path: f"\n{text}\n"}, f"{path}:2: a position of the code: {position}")
                self.run_check({})

    def test_a_file_of_the_code_is_no_position(self):
        self.assert_passes(
            {"crates/reader/proofs/plain/Answers.antt": "-- as in src/lib.rt: 1, and src/inner.rt, too\n"},
            "surface: 1 libraries, 9 public functions, 0 findings",
        )

    def assert_cites(self, changes, *findings):
        """A further file of the library, and others, have these findings, each given by its line and what is wrong."""
        path = "crates/reader/src/more.rt"
        self.assert_finds(changes, *(f"{path}:{finding}, which is or uses Workers.antt" for finding in findings))

    def test_contract_that_cites_workers(self):
        self.assert_cites(
            {
                "crates/reader/specs/Workers.antt": "pub steps : ℕ → ℕ\n",
                "crates/reader/src/more.rt": CITING % ("Workers", "steps, inner"),
            },
            "4: reader::more::cited cites steps of crates/reader/specs/Workers.antt",
        )

    def test_contract_that_cites_workers_of_another_crate(self):
        text = CITING.replace("Rattle.reader.specs.", "Rattle.teller.specs.") % (
            "Workers",
            "\n    inner,\n    steps,\n",
        )
        self.assert_cites(
            {"crates/teller/specs/Workers.antt": "pub steps : ℕ → ℕ\n", "crates/reader/src/more.rt": text},
            "7: reader::more::cited cites steps of crates/teller/specs/Workers.antt",
        )

    def test_contract_that_cites_a_name_of_several_words(self):
        text = CITING.replace("steps", "steps_of") % ("Workers", "steps_of, steps")
        self.assert_cites(
            {"crates/reader/specs/Workers.antt": "pub steps_of : ℕ → ℕ\n", "crates/reader/src/more.rt": text},
            "4: reader::more::cited cites steps_of of crates/reader/specs/Workers.antt",
        )

    def test_contract_that_cites_an_operator_of_workers(self):
        self.assert_cites(
            {
                "crates/reader/specs/Workers.antt": "pub ◌at◌ : ℕ → ℕ → ℕ\n",
                "crates/reader/src/more.rt": CITING % ("Workers", "◌at◌, ◌at◌of◌"),
            },
            "4: reader::more::cited cites ◌at◌ of crates/reader/specs/Workers.antt",
        )

    def test_contract_that_leans_on_workers(self):
        self.assert_cites(
            {
                "crates/teller/specs/Workers.antt": "pub inner : ℕ → ℕ\n",
                "crates/reader/specs/Middle.antt": "use Rattle.teller.specs.Workers.{inner}\n",
                "crates/reader/specs/Outer.antt": "use Rattle.reader.specs.Middle as middle\n",
                "crates/reader/src/more.rt": CITING % ("Outer", "steps"),
            },
            "4: reader::more::cited cites steps of crates/reader/specs/Outer.antt",
        )

    def test_workers_of_private_functions(self):
        self.assert_passes(
            {
                "crates/reader/specs/Workers.antt": "use Rattle.reader.specs.First.{first}\n",
                "crates/reader/proofs/One.antt": "use Rattle.reader.specs.Workers.{inner}\n",
                "crates/reader/src/more.rt": CITING % ("Workers", "inner, turned, filled, behind"),
                "crates/reader/src/less.rt": CITING % ("First", "first, steps"),
            },
            "surface: 1 libraries, 11 public functions, 0 findings",
        )

    def test_workers_without_a_list_of_names(self):
        path = "crates/reader/src/more.rt"
        for form in ("Workers as workers", "Workers", "Workers.steps"):
            with self.subTest(form):
                self.assert_finds(
                    {"crates/reader/specs/Workers.antt": "", path: f"ghost use Rattle.reader.specs.{form};\n"},
                    f"{path}:1: Rattle.reader.specs.Workers is used without a list of names",
                )

    @unittest.skipUnless(shutil.which("git"), "git is not here")
    def test_checkout(self):
        subprocess.run(["git", "init", "--quiet", str(self.root)], check=True)
        self.assert_passes(
            {".gitignore": "scratch/\ntarget/\n", "scratch/try.rt": ""},
            "surface: 1 libraries, 9 public functions, 0 findings",
        )
        self.assert_finds({"notes/try.rt": ""}, f"notes/try.rt:1: {UNPLACED}")
        subprocess.run(["git", "-C", str(self.root), "add", "notes"], check=True)
        self.assert_finds({}, f"notes/try.rt:1: {UNPLACED}")


if __name__ == "__main__":
    unittest.main()
