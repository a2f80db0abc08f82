"""Tests of what runs the tests: worked cases are read as their page says, and a program that answers otherwise fails them."""

import re
import stat
import sys
import tempfile
import time
import unittest
from pathlib import Path

sys.dont_write_bytecode = True
sys.path.insert(0, str(Path(__file__).resolve().parent.parent))

from cases import cases_in  # noqa: E402
from figures import filled, shown  # noqa: E402
from judging import ACCEPTED, Program, first_difference, status_of  # noqa: E402
from schedule import PARTS, SHARED, Schedule, crates_below, kept_crates, narrow_end  # noqa: E402

CASES = """What the file is about.

== a sum of two
PROGRAM Main VAR_INPUT A : INT; END_VAR VAR B : INT; END_VAR
B := A + 1;
END_PROGRAM
-- session steps 9
| scan Main.A => Main.B
| 0 4 => 5
| 1 - => 5!
> undo
refused O7
-- layout
0 2 INT Main.A

== each bound
PROGRAM Main VAR A : {type}; END_VAR END_PROGRAM
-- session
> write Main.A {above}
refused O3
-- each type above
SINT 128
INT  32768

== a repetition
PROGRAM Main VAR A{2*, A@} : INT; END_VAR
A1 := {3*(}1{3*)};
{count*
A@ := 1;
}
END_PROGRAM
-- session
{2*
> scan @
ok
}
> status{1* }
-- each count
0
2
"""


class CasesAreRead(unittest.TestCase):
    def setUp(self) -> None:
        self.folder = tempfile.TemporaryDirectory()
        file = Path(self.folder.name) / "sums.cases"
        file.write_text(CASES)
        self.cases = list(cases_in(file, "sums.cases"))

    def tearDown(self) -> None:
        self.folder.cleanup()

    def test_blocks_are_cases_and_so_are_rows(self) -> None:
        self.assertEqual([it.name for it in self.cases], ["a sum of two", *["each bound"] * 2, *["a repetition"] * 2])
        self.assertEqual([it.place for it in self.cases], [f"sums.cases:{it}" for it in (3, 22, 23, 39, 40)])

    def test_columns_are_scans_and_what_they_show(self) -> None:
        session, layout = self.cases[0].parts
        self.assertEqual(session.words, "session steps 9")
        self.assertEqual(session.typed, ["scan 0 Main.A:=4", "show Main.B", "scan 1", "show Main.B", "undo"])
        self.assertEqual(session.wanted, ["ok", "Main.B = 5", "ok", "Main.B = 5 forced", "refused O7"])
        self.assertEqual((layout.words, layout.wanted), ("layout", ["0 2 INT Main.A"]))

    def test_words_in_braces_have_the_values_of_the_row(self) -> None:
        self.assertEqual(self.cases[2].text, "PROGRAM Main VAR A : INT; END_VAR END_PROGRAM\n")
        self.assertEqual(self.cases[2].parts[0].typed, ["write Main.A 32768"])

    def test_what_is_repeated_stands_so_often_with_its_number(self) -> None:
        none, twice = self.cases[3:]
        self.assertEqual(none.text, "PROGRAM Main VAR A, A1, A2 : INT; END_VAR\nA1 := (((1)));\nEND_PROGRAM\n")
        self.assertEqual(twice.text, none.text.replace("END_P", "A1 := 1;\nA2 := 1;\nEND_P"))
        self.assertEqual((twice.parts[0].typed, twice.parts[0].wanted), (["scan 1", "scan 2", "status "], ["ok", "ok"]))

    def program(self, script: str) -> Program:
        file = Path(self.folder.name) / "program"
        file.write_text(f"#!/bin/sh\n{script}\n")
        file.chmod(file.stat().st_mode | stat.S_IXUSR)
        return Program(str(file), Path(self.folder.name))

    def test_a_case_fails_for_other_replies_and_for_another_status(self) -> None:
        case = self.cases[1]
        self.assertIsNone(self.program("echo refused O3; exit 3").failure_in_case(case))
        self.assertEqual(self.program("echo ok").failure_in_case(case), "run: line 1 is 'ok', and not 'refused O3'")
        self.assertEqual(self.program("echo refused O3").failure_in_case(case), "run: the status is 0, and not 3")

    def test_every_part_of_a_case_counts(self) -> None:
        right = "printf 'ok\\nMain.B = 5\\nok\\nMain.B = 5 forced\\nrefused O7\\n'; exit 3"
        failure = self.program(f'if [ "$1" = run ]; then {right}; fi; echo 0 2 INT Main.B').failure_in_case(self.cases[0])
        self.assertEqual(failure, "layout: line 1 is '0 2 INT Main.B', and not '0 2 INT Main.A'")

    def test_a_case_without_parts_fails(self) -> None:
        self.cases[0].parts.clear()
        self.assertIsNotNone(self.program("exit 0").failure_in_case(self.cases[0]))


class AnswersAreJudged(unittest.TestCase):
    def test_a_missing_line_and_one_too_many_are_differences(self) -> None:
        self.assertIsNone(first_difference("ok\n", "ok\n"))
        self.assertEqual(first_difference("ok\n", "ok\nok\n"), "line 2 is '', and not 'ok'")
        self.assertEqual(first_difference("ok\nok", "ok"), "line 2 is 'ok', and not '(the end)'")

    def test_the_status_is_that_of_the_worst_reply(self) -> None:
        self.assertEqual(status_of("ok\nMain.A = 5\n"), ACCEPTED)
        self.assertEqual(status_of("ok\nfault F2 Main line 4\n"), 3)


class BuildsArePlanned(unittest.TestCase):
    def setUp(self) -> None:
        self.folder = tempfile.TemporaryDirectory()
        self.root = Path(self.folder.name)
        (self.root / "crates.txt").write_text("# lowest first\nlow: smallvec\nhigh: low\napart:\nstc: high low clap\n")
        for name in ("low", "high", "apart", "stc"):
            (self.root / "crates" / name / "src").mkdir(parents=True)
            (self.root / "crates" / name / "src" / "lib.rt").write_text("")
        (self.root / "docs").mkdir()
        (self.root / "docs" / "checks.csv").write_text("crate,seconds\nlow,10\nhigh,20\nstc,30\n")
        self.crates = crates_below(self.root, "stc")

    def tearDown(self) -> None:
        self.folder.cleanup()

    def test_crates_come_after_those_that_they_stand_on(self) -> None:
        self.assertEqual(self.crates, {"low": [], "high": ["low"], "stc": ["high", "low"]})

    def test_a_library_is_kept_until_a_source_below_it_is_newer(self) -> None:
        for name in ("low", "high"):
            (self.root / "crates" / name / "out" / "rlib").mkdir(parents=True)
            (self.root / "crates" / name / "out" / "rlib" / "stamp").write_text("")
        self.assertEqual(kept_crates(self.root, self.crates), {"low", "high"})
        time.sleep(0.02)
        (self.root / "crates" / "low" / "src" / "lib.rt").write_text("// changed\n")
        self.assertEqual(kept_crates(self.root, self.crates), set())

    def test_the_end_is_narrow_where_each_crate_stands_on_all_before_it(self) -> None:
        self.assertEqual(narrow_end(self.crates), ["low", "high", "stc"])
        self.assertEqual(narrow_end({"low": [], "one": ["low"], "other": ["low"], "top": ["one", "other"], "stc": ["top"]}), ["other", "top", "stc"])

    def test_the_rest_takes_as_long_as_the_chain(self) -> None:
        schedule = Schedule(self.root, self.crates, 1)
        self.assertEqual(schedule.left({"low"}, 5), 25)
        self.assertEqual(schedule.left({"low", "high", "stc"}, 30), 0)

    def test_side_by_side_two_take_as_long_as_the_longer(self) -> None:
        crates = {"low": [], "high": [], "stc": ["low", "high"]}
        self.assertEqual(Schedule(self.root, crates, 2).ends, {"low": 10, "high": 20, "stc": 20 + 30 / SHARED})


class FiguresAreShown(unittest.TestCase):
    def test_values_have_their_units(self) -> None:
        self.assertEqual([shown(0.5, "us"), shown(83_000, "us"), shown(0.49, ""), shown(5_300, "MB")], ["0.50 us", "83.0 ms", "0.49", "5,300 MB"])

    def test_a_page_has_the_table_of_a_subject_and_the_greatest_figure(self) -> None:
        tables = {"machine": {"a box": {"cores": (4.0, "")}, "clock": {"MHz": (2500.0, "")}}, "scans": {"one": {"Time": (2.0, "ms")}, "two": {"Time": (3.0, "ms")}}}
        page = "<!-- figures scans -->\n<!-- end -->\nat most <!-- most scans: Time --><!-- end -->"
        self.assertIn("| two | 3.00 ms |", filled(page, tables))
        self.assertTrue(filled(page, tables).endswith("<!-- most scans: Time -->3.00 ms<!-- end -->"))


class CratesNameWhatTheyUse(unittest.TestCase):
    def test_each_library_of_a_line_is_used(self) -> None:
        root = Path(__file__).resolve().parent.parent.parent
        named = [line.partition(":") for line in (root / "crates.txt").read_text().splitlines() if re.match(r"\w+:", line)]
        own = {crate for crate, _, _ in named}
        for crate, _, libraries in named:
            files = [it for part in PARTS for it in (root / "crates" / crate / part).rglob("*") if it.is_file()]
            words = {word for it in files for word in re.findall(r"\w+", it.read_text())}
            self.assertEqual([it for it in libraries.split() if it in own and it not in words], [], crate)


if __name__ == "__main__":
    unittest.main()
