"""The front door: on each folder of samples/ it prints the line that stands there, its exit status says how that went,
and it shows how far a build is."""

import os
import shutil
import subprocess
import tempfile
import unittest
from pathlib import Path

import samples

DESK = Path(__file__).resolve().parents[2] / "desk"

ACCEPTED, REFUSED, WRONG_USE, NOT_WRITTEN, NO_ANSWER = range(5)


def desk(*arguments, **options):
    """What the front door wrote and its exit status; `options` are those of a process, as `stdout`."""
    given = {"stdout": subprocess.PIPE, "stderr": subprocess.PIPE, "text": True, "timeout": 3600, **options}
    return subprocess.run([str(DESK), *arguments], **given)


def status_of(line):
    return REFUSED if line.startswith("refused") else ACCEPTED


class Desk(unittest.TestCase):
    def test_every_sample_prints_its_line(self):
        for name, files in samples.SAMPLES.items():
            with self.subTest(sample=name):
                line = files["line.txt"].decode()
                answer = desk(name.split("-")[0], str(samples.FOLDER / name))
                self.assertEqual((line, status_of(line)), (answer.stdout, answer.returncode))

    def test_the_folders_are_those_of_the_list(self):
        self.assertEqual(0, samples.main(check=True))
        self.assertEqual(
            sorted(samples.SAMPLES), sorted(path.name for path in samples.FOLDER.iterdir() if path.is_dir())
        )

    def test_a_folder_without_files(self):
        answer = desk("links", str(samples.FOLDER))
        self.assertEqual(("refused 1\n", REFUSED), (answer.stdout, answer.returncode))

    def test_usage(self):
        for arguments in ([], ["links"], ["names", str(samples.FOLDER)], ["links", str(samples.FOLDER / "nowhere")]):
            with self.subTest(arguments=arguments):
                answer = desk(*arguments)
                self.assertEqual(("", WRONG_USE), (answer.stdout, answer.returncode))
                self.assertTrue(answer.stderr)

    def test_the_usage_says_each_exit_status(self):
        told = desk().stderr.split("exit status:")[1].splitlines()
        self.assertEqual(list("01234"), [line.split()[0] for line in told])


# A kit that proves nothing: it prints what `rt run` prints where reports was proved before, unless `anew` is there, and
# builds a program that writes the text of answer.
KIT = """\
#!/bin/sh
top=$PWD/../..
[ "$*" = run ] && [ "${PWD##*/}" = link_report ] || exit 2
check() {
    echo "rt: chose --jobs 2 for $1" >&2
    echo "fn $1::load: proved" >&2
    if [ -e "$top/broken" ]; then
        echo "logic=not-proved" >&2
        echo "rt: the library $1 did not build, so nothing above it was checked" >&2
        exit 1
    fi
    echo "logic=proved functions=1" >&2
}
echo "rt: words: begins with what a check kept in another folder" >&2
check words
[ ! -e "$top/anew" ] || check reports
check link_report
mkdir -p out
printf '#!/bin/sh\\ncat %s\\n' "$top/answer" > out/link_report
chmod +x out/link_report
echo "rt: running out/link_report; to give it other input, run that file yourself" >&2
out/link_report
"""
CRATES = """\
# the crates
link_report: files reports words
reports staticlib: words
words:
name_report: reports words
files: # no crate below it
"""


class Built(unittest.TestCase):
    """A repository of its own, in which the report is built by a stand-in for the kit."""

    def setUp(self):
        folder = tempfile.TemporaryDirectory()
        self.addCleanup(folder.cleanup)
        self.root = Path(folder.name)
        (self.root / "crates" / "link_report").mkdir(parents=True)
        (self.root / "kit").mkdir()
        (self.root / "kit" / "rt").write_text(KIT)
        (self.root / "kit" / "rt").chmod(0o755)
        (self.root / "crates.txt").write_text(CRATES)
        shutil.copy(DESK, self.root)
        self.answers("links inputs=0 linked=0 names=0\n")

    def answers(self, text):
        (self.root / "answer").write_text(text)

    def desk(self, kit="kit", **options):
        path = f"{self.root / kit}:/usr/bin:/bin"
        given = {"stdout": subprocess.PIPE, "stderr": subprocess.PIPE, "text": True, "timeout": 60, **options}
        return subprocess.run([str(self.root / "desk"), "links", "."], cwd=self.root, env={"PATH": path}, **given)

    def test_a_first_build_shows_how_far_it_is(self):
        (self.root / "anew").touch()
        answer = self.desk()
        self.assertEqual(("links inputs=0 linked=0 names=0\n", ACCEPTED), (answer.stdout, answer.returncode))
        said = answer.stderr.splitlines()
        self.assertEqual(5, len(said), said)
        self.assertRegex(said[0], r"^desk: installing target/bin/link_report: 4 crates")
        self.assertRegex(said[1], r"^desk: crate 2 of 4 after \d+ s: words proved$")
        self.assertRegex(said[2], r"^desk: crate 3 of 4 after \d+ s: reports proved$")
        self.assertRegex(said[3], r"^desk: crate 4 of 4 after \d+ s: link_report proved$")
        self.assertRegex(said[4], r"^desk: target/bin/link_report is installed, after \d+ s")

    def test_what_was_proved_before_is_counted_and_not_told(self):
        said = self.desk().stderr.splitlines()
        self.assertEqual(4, len(said), said)
        self.assertRegex(said[1], r"^desk: crate 2 of 4 after \d+ s: words proved$")
        self.assertRegex(said[2], r"^desk: crate 4 of 4 after \d+ s: link_report proved$")

    def assert_taken_as_it_is(self):
        answer = self.desk(kit="nowhere")
        self.assertEqual(
            ("links inputs=0 linked=0 names=0\n", "", ACCEPTED), (answer.stdout, answer.stderr, answer.returncode)
        )

    def test_what_is_built_is_not_built_again(self):
        self.desk()
        self.assert_taken_as_it_is()
        made = self.root / "crates" / "words" / "out" / "words.rlib"
        made.parent.mkdir(parents=True)
        made.touch()
        os.utime(made, (2**32, 2**32))
        self.assert_taken_as_it_is()
        changed = self.root / "crates" / "words.rt"
        changed.touch()
        os.utime(changed, (2**32, 2**32))
        self.assertIn("crate 4 of 4", self.desk().stderr)

    def test_what_the_gate_has_built_is_installed(self):
        made = self.root / "crates" / "link_report" / "out" / "link_report"
        made.parent.mkdir()
        made.write_text(f"#!/bin/sh\ncat {self.root}/answer\n")
        made.chmod(0o755)
        self.assert_taken_as_it_is()
        self.assertTrue((self.root / "target" / "bin" / "link_report").is_file())

    def test_a_build_that_fails(self):
        (self.root / "broken").touch()
        answer = self.desk()
        self.assertEqual(("", NO_ANSWER), (answer.stdout, answer.returncode))
        self.assertIn("the library words did not build", answer.stderr)

    def test_no_kit(self):
        answer = self.desk(kit="nowhere")
        self.assertEqual(("", NO_ANSWER), (answer.stdout, answer.returncode))
        self.assertIn("rt", answer.stderr)

    def test_no_room_to_build_in(self):
        (self.root / "target").write_text("a file where the folder would be")
        self.assertEqual(NO_ANSWER, self.desk().returncode)

    def test_a_refused_pair(self):
        self.answers("refused 26 at 0\n")
        answer = self.desk()
        self.assertEqual(("refused 26 at 0\n", REFUSED), (answer.stdout, answer.returncode))

    def test_a_report_without_an_answer(self):
        for text in ("", "\n", "else\n"):
            with self.subTest(text=text):
                self.answers(text)
                answer = self.desk()
                self.assertEqual(("", NO_ANSWER), (answer.stdout, answer.returncode))
                self.assertIn("gave no answer", answer.stderr)

    def test_a_report_that_fails(self):
        self.desk()
        (self.root / "answer").unlink()
        self.assertEqual(NO_ANSWER, self.desk().returncode)

    def test_a_report_that_tells_a_failed_write(self):
        self.desk()
        program = self.root / "target" / "bin" / "link_report"
        program.write_text(program.read_text() + "exit 1\n")
        answer = self.desk()
        self.assertEqual(("", NO_ANSWER), (answer.stdout, answer.returncode))

    def assert_not_written(self, **options):
        """Whatever the answer is, that it could not be written is told."""
        for text in ("links inputs=0 linked=0 names=0\n", "refused 1\n"):
            with self.subTest(text=text):
                self.answers(text)
                answer = self.desk(**options)
                self.assertEqual(NOT_WRITTEN, answer.returncode)
                self.assertIn("the answer could not be written", answer.stderr)

    def test_a_full_disk(self):
        with open("/dev/full", "w") as full:
            self.assert_not_written(stdout=full)

    def test_a_closed_pipe(self):
        end, pipe = os.pipe()
        os.close(end)
        self.addCleanup(os.close, pipe)
        self.assert_not_written(stdout=pipe)

    def test_no_standard_output(self):
        self.assert_not_written(stdout=None, preexec_fn=lambda: os.close(1))

    def test_messages_that_nobody_reads(self):
        with open("/dev/full", "w") as full:
            answer = self.desk(stderr=full)
        self.assertEqual(("links inputs=0 linked=0 names=0\n", ACCEPTED), (answer.stdout, answer.returncode))


if __name__ == "__main__":
    unittest.main()
