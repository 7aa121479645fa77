"""check.py and watch.py on the examples, beside their expected reports and beside Boogie."""

import re
import shutil
import subprocess
import tempfile
import unittest
from pathlib import Path

from bplclient import words

from .editor import FOLDER, TOP

EXAMPLES = FOLDER.parent
# a line of Boogie or of check.py; the path to a postcondition is Boogie's alone
TOLD = re.compile(
    r"(?m)^(?:.*/)?([^/\s(]+\.bpl\(\d+,\d+\)): (?:Error|Related location)(?: BP\d+)?: (?!A post)(.*)$"
)
EACH_KIND = """procedure Need(n: int);
  requires n > 0;
  free requires n > 1; requires n > 2;
procedure Use(x: int, y: int) returns (r: int)
  ensures r > 1; ensures r == x;
{
  var i: int;
  if (y == 0) { call Need(x); }
  if (y == 1) { assert x > 0; }
  i := x;
  while (i < 3)
    invariant i <= 3;
    invariant i != 2;
  { i := i + 1; }
  r := x;
}
"""
# of examples in which something is left open, those that Boogie's own rules find wrong too
LEFT_OPEN = ["open", "broken_queue", "break_out", "loop_with_calls", "preconditions", "where_clauses"]


def run(program: str, *files: Path | str) -> subprocess.CompletedProcess:
    return subprocess.run(
        [FOLDER / program, *files], stdin=subprocess.DEVNULL, capture_output=True, text=True, check=False
    )


def save(file: Path, text: str) -> None:
    """Puts a whole text in a file's place."""
    aside = file.with_suffix(".new")
    aside.write_text(text)
    aside.replace(file)


def plain_examples(status: int) -> list[Path]:
    """The examples that `check` answers with a status, without further words."""
    found = []
    for file in sorted(EXAMPLES.glob("*.bpl")):
        expected = file.with_suffix(".expected").read_text()
        if not file.with_suffix(".words").exists() and expected.endswith(f"status {status}\n"):
            found.append(file)
    return found


def told(output: str) -> set[tuple[str, str]]:
    """What is said not to hold: the places and the words."""
    return set(TOLD.findall(output))


class Check(unittest.TestCase):
    def test_correct_programs(self):
        files = plain_examples(0)
        ran = run("check.py", *files)
        count = sum(file.with_suffix(".expected").read_text().count(" correct\n") for file in files)
        self.assertEqual((ran.stdout, ran.returncode), (f"{count} of {count} procedures are correct\n", 0))

    def test_each_goal_that_is_not_proved_has_a_line(self):
        for file in plain_examples(1):
            expected = file.with_suffix(".expected").read_text()
            not_proved = re.findall(r"(?m)^\S+ \d+:\d+ \S+ (?!proved$)", expected)
            ran = run("check.py", file)
            self.assertEqual(
                len(re.findall(r"(?m)^.*\(\d+,\d+\): Error: ", ran.stdout)), len(not_proved), ran.stdout
            )
            self.assertEqual(ran.returncode, 1)

    def test_each_fault_has_a_line(self):
        for file in plain_examples(6):
            fault = file.with_suffix(".expected").read_text().split()[1]
            ran = run("check.py", file)
            self.assertRegex(
                ran.stdout, rf"^\S+\(\d+,\d+\): Error: {fault}: .*\n0 of 0 procedures are correct\n$"
            )
            self.assertEqual(ran.returncode, 1)

    def test_no_file(self):
        ran = run("check.py", "/no/such/file.bpl")
        self.assertRegex(ran.stdout, r"^/no/such/file.bpl\(1,1\): Error: ")
        self.assertEqual(ran.returncode, 1)

    def test_bytes_that_are_no_text(self):
        with tempfile.TemporaryDirectory() as folder:
            file = Path(folder, "bytes.bpl")
            file.write_bytes(b"/* \xff\xfe */ procedure P() { assert 1 > 2; }")
            for program in ("check.py", "watch.py"):
                ran = run(program, *(["--once"] if program == "watch.py" else []), file)
                self.assertIn(f"{file}(1,26): Error: This assertion might not hold.\n", ran.stdout)

    def test_watch_says_what_check_says(self):
        for file in plain_examples(1)[:3] + plain_examples(6)[:3]:
            checked, watched = run("check.py", file).stdout, run("watch.py", "--once", file).stdout
            self.assertEqual(checked.splitlines()[:-1], watched.splitlines()[:-1])


class Watch(unittest.TestCase):
    def test_each_saved_text_is_told(self):
        with tempfile.TemporaryDirectory() as folder:
            file = Path(folder, "program.bpl")
            save(file, "procedure P() { assert 1 > 2; }")
            words = [FOLDER / "watch.py", file]
            with subprocess.Popen(
                words, stdin=subprocess.DEVNULL, stdout=subprocess.PIPE, text=True
            ) as watch:
                told = [watch.stdout.readline() for _ in range(2)]
                save(file, "procedure P() { assert 1 > 0; }")
                told.append(watch.stdout.readline())
                save(file, "procedure P() { assert 1 > x; }")
                told += [watch.stdout.readline() for _ in range(2)]
                watch.terminate()
        self.assertEqual(told[0], f"{file}(1,17): Error: This assertion might not hold.\n")
        self.assertEqual(told[1:3], ["(0 of 1 proved)\n", "(1 of 1 proved)\n"])
        self.assertRegex(told[3], r"\(1,28\): Error: Unknown: .* \(x\)\n")
        self.assertEqual(told[4], "(not opened)\n")


@unittest.skipUnless(shutil.which("boogie"), "boogie isn't there")
class BesideBoogie(unittest.TestCase):
    def compare(self, file: Path) -> None:
        words = ["boogie", "/errorLimit:20", file]
        boogie = subprocess.run(
            words, stdin=subprocess.DEVNULL, capture_output=True, text=True, check=False
        )
        self.assertEqual(told(run("check.py", file).stdout), told(boogie.stdout), boogie.stdout)
        self.assertTrue(told(boogie.stdout), boogie.stdout)

    def test_the_same_places_and_words(self):
        for name in LEFT_OPEN:
            self.compare(EXAMPLES / f"{name}.bpl")

    def test_each_kind(self):
        with tempfile.TemporaryDirectory() as folder:
            file = Path(folder, "kinds.bpl")
            file.write_text(EACH_KIND)
            self.compare(file)


class Words(unittest.TestCase):
    def test_faults_are_told_as_the_language_tells_them(self):
        rows = re.findall(
            r"(?m)^\| (\w+) \| (.*?) \| (?!-)[^|]+ \|$", (TOP / "docs" / "LANGUAGE.md").read_text()
        )
        told = {kind: said for kind, said in rows if kind not in ("fault", "Unbuilt")}
        self.assertGreater(len(told), 12)
        self.assertEqual(told, {kind: words.FAULTS[kind] for kind in told})


if __name__ == "__main__":
    unittest.main()
