"""Tests of the programs that are measured beside Lua: each stands there in three languages, and these come to the same results."""

import shutil
import subprocess
import sys
import tempfile
import unittest
from pathlib import Path

sys.dont_write_bytecode = True
sys.path.insert(0, str(Path(__file__).resolve().parent.parent))

import suite  # noqa: E402
from figures import filled  # noqa: E402


def written(words: list[str]) -> str:
    return subprocess.run(words, check=True, capture_output=True, text=True).stdout


class ProgramsAreWhole(unittest.TestCase):
    def test_each_stands_in_three_languages_and_no_other_does(self) -> None:
        listed = {f"{it.name}{suffix}" for it in suite.programs() for suffix in (".st", ".lua", ".c")}
        self.assertEqual({it.name for it in suite.BENCH.iterdir()}, listed | {"programs.csv", "bench.h"})

    def test_a_session_has_a_line_for_each_scan_and_asks_for_the_result(self) -> None:
        program = suite.Bench("sums", 3, "5", "a sum")
        self.assertEqual(program.session(), "scan 0\nscan 1\nscan 2\nshow Main.R\n")

    def test_the_result_is_what_a_run_writes_last(self) -> None:
        self.assertEqual([suite.result_of(it) for it in ("ok\nMain.R = -5\n", "7\n", "")], ["-5", "7", ""])

    @unittest.skipUnless(shutil.which("lua5.4"), "there is no lua5.4")
    def test_lua_comes_to_the_results(self) -> None:
        came = {it.name: suite.result_of(written(["lua5.4", it.file(".lua"), str(it.scans)])) for it in suite.programs()}
        self.assertEqual(came, {it.name: it.result for it in suite.programs()})

    @unittest.skipUnless(shutil.which("gcc"), "there is no gcc")
    def test_c_comes_to_the_results(self) -> None:
        for it in suite.programs():
            with tempfile.TemporaryDirectory() as folder:
                subprocess.run(["gcc", "-O2", "-Wall", "-Werror", "-o", f"{folder}/program", it.file(".c")], check=True)
                self.assertEqual(suite.result_of(written([f"{folder}/program", str(it.scans)])), it.result, it.name)


class RatiosAreShown(unittest.TestCase):
    def test_the_mean_is_the_geometric_one(self) -> None:
        self.assertAlmostEqual(suite.mean([0.5, 2.0]), 1.0)
        self.assertAlmostEqual(suite.mean([0.2, 0.4, 0.8]), 0.4)

    def test_a_page_has_the_mean_and_the_worst(self) -> None:
        tables = {"machine": {"a box": {"cores": (4.0, "")}}, "programs": {"one": {"of Lua's time": (0.25, "")}, "two": {"of Lua's time": (1.0, "")}}}
        page = "<!-- mean programs: of Lua's time --><!-- end --> and <!-- most programs: of Lua's time -->9<!-- end -->"
        shown = "<!-- mean programs: of Lua's time -->0.50<!-- end --> and <!-- most programs: of Lua's time -->1.00<!-- end -->"
        self.assertEqual(filled(page, {**tables, "machine": {"a box": {"cores": (4.0, "")}, "clock": {"MHz": (2500.0, "")}}}), shown)


if __name__ == "__main__":
    unittest.main()
