"""Tests of the manual page and of the completions: they are whole, and name what the program's own words are."""

import re
import shutil
import subprocess
import tempfile
import unittest
from pathlib import Path

ROOT = Path(__file__).resolve().parent.parent.parent
MANUAL = ROOT / "docs" / "stc.1"
WORDS = (ROOT / "crates" / "st_words" / "src" / "words.rt").read_text()
OPTIONS = sorted({f"--{name}" for name in re.findall(r'(?:option|flag)\(alloc, "(\w+)"', WORDS)})
VERBS = re.findall(r'"(\w+)" => Some\(Verb::', WORDS)


def completed(*words: str, folder: Path = ROOT) -> list[str]:
    """What stands for the last word, behind those before it."""
    script = 'source "$0"; COMP_WORDS=("$@"); COMP_CWORD=$(($# - 1)); _stc; printf "%s\\n" "${COMPREPLY[@]}"'
    run = ["bash", "-c", script, str(ROOT / "tools" / "completion.bash"), *words]
    return sorted(subprocess.run(run, check=True, capture_output=True, text=True, cwd=folder).stdout.split())


class TheManualPage(unittest.TestCase):
    def shown(self) -> str:
        """The page as `man` shows it, of which it warns nothing."""
        if not shutil.which("man"):
            self.skipTest("there is no man")
        how = {"capture_output": True, "text": True, "env": {"PATH": "/usr/bin:/bin", "MANWIDTH": "100", "LC_ALL": "C.UTF-8", "MANROFFSEQ": ""}}
        run = subprocess.run(["man", "--warnings", "-E", "UTF-8", "-l", str(MANUAL)], check=True, **how)
        self.assertEqual(run.stderr, "")
        return run.stdout

    def test_it_is_shown_without_a_warning_and_names_all_words(self) -> None:
        page = self.shown()
        for word in ["NAME", "SYNOPSIS", "EXIT STATUS", "EXAMPLES", *OPTIONS, *(f"stc {verb}" for verb in VERBS), "stc help"]:
            self.assertIn(word, page)

    def test_it_has_each_status_once(self) -> None:
        part = MANUAL.read_text().partition(".SH EXIT STATUS")[2].partition(".SH EXAMPLES")[0]
        self.assertEqual(re.findall(r"^\.B (\d)$", part, re.M), ["0", "1", "2", "3", "4", "5"])


class Completions(unittest.TestCase):
    def test_the_first_word_is_a_command(self) -> None:
        self.assertEqual(completed("stc", ""), sorted([*VERBS, "help", "--help", "--version"]))
        self.assertEqual(completed("stc", "r"), ["run"])
        self.assertIn("build", completed("./stc", ""))

    def test_behind_help_stands_a_command(self) -> None:
        self.assertEqual(completed("stc", "help", ""), sorted(VERBS))
        self.assertEqual(completed("stc", "help", "run", ""), [])

    def test_each_command_has_its_options(self) -> None:
        self.assertEqual(completed("stc", "check", "a.st", "--"), ["--all", "--help", "--program", "--quiet"])
        self.assertEqual(completed("stc", "layout", "a.st", "--"), ["--help", "--program", "--quiet"])
        self.assertEqual(completed("stc", "run", "a.st", "--"), ["--help", "--program", "--quiet", "--steps"])
        offered = {it for verb in VERBS for it in completed("stc", verb, "--")}
        self.assertEqual(offered - {"--help"}, set(OPTIONS))

    def test_programs_are_those_of_the_text(self) -> None:
        with tempfile.TemporaryDirectory() as folder:
            Path(folder, "two.st").write_text("PROGRAM Main END_PROGRAM program Other END_PROGRAM")
            self.assertEqual(completed("stc", "run", "two.st", "--program", "", folder=Path(folder)), ["Main", "Other"])
            self.assertEqual(completed("stc", "run", "two.st", "--program", "M", folder=Path(folder)), ["Main"])
            self.assertEqual(completed("stc", "check", "", folder=Path(folder)), ["two.st"])

    def test_a_number_is_not_completed(self) -> None:
        self.assertEqual(completed("stc", "run", "a.st", "--steps", ""), [])


if __name__ == "__main__":
    unittest.main()
