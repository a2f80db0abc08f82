"""Tests of what makes random sessions: a seed gives one session, and all types, blocks and commands come up."""

import importlib.machinery
import importlib.util
import random
import sys
import tempfile
import unittest
from pathlib import Path
from types import ModuleType
from typing import Any

sys.dont_write_bytecode = True
TOOLS = Path(__file__).resolve().parent.parent
sys.path.insert(0, str(TOOLS))

from random_programs import BLOCKS, ELEMENTARY, new_program  # noqa: E402


def tool(name: str) -> ModuleType:
    """A tool as a module."""
    loader = importlib.machinery.SourceFileLoader(name.replace("-", "_"), str(TOOLS / name))
    spec = importlib.util.spec_from_loader(loader.name, loader)
    assert spec
    module = sys.modules[loader.name] = importlib.util.module_from_spec(spec)
    loader.exec_module(module)
    return module


class SessionsAreMade(unittest.TestCase):
    def setUp(self) -> None:
        self.sessions = tool("random-sessions")

    def test_a_seed_gives_one_session(self) -> None:
        self.assertEqual(self.sessions.made(7), self.sessions.made(7))
        self.assertNotEqual(self.sessions.made(7), self.sessions.made(8))

    def test_all_types_and_blocks_come_up(self) -> None:
        kinds = {kind for seed in range(200) for kind in new_program(random.Random(seed)).variables.values()}
        self.assertLessEqual({*ELEMENTARY, *BLOCKS, "Pair"}, kinds)

    def test_all_commands_come_up(self) -> None:
        words = {line.partition(" ")[0] for seed in range(100) for line in self.sessions.made(seed).lines.split("\n")}
        commands = {"show", "write", "force", "release", "scan", "undo", "reset", "status", "change", "end_change"}
        self.assertLessEqual(commands | {"frob"}, words)

    def test_a_refused_text_is_a_case_of_its_refusal(self) -> None:
        made = self.sessions.Made(1, "PROGRAM\n", "show Main.A\n", 5, "refused S2 line 1\nstatus 1")
        self.assertEqual(self.sessions.case_text(made), "== 1\nPROGRAM\n-- refused S2 line 1\n\n")


class RunsAreJudged(unittest.TestCase):
    def setUp(self) -> None:
        self.refuser = tool("refuse-allocations")
        self.part = self.refuser.trial(Path("st_cases"), "--without-memory=load", 2)

    def counting_run(self, first: int, refused: int, counted: int, failed: int = 0) -> Any:
        """A run that refused so many allocations, of which the trial counted so many."""
        ended = f"{failed} load: refused {counted} times, {counted} in a row|{1 - failed} passed, {failed} failed|"
        return self.refuser.Run(first, refused, ended)

    def test_refusals_are_counted(self) -> None:
        runs = [self.counting_run(1, 2, 2), self.counting_run(2, 1, 0)]
        self.assertEqual(self.refuser.judged(self.part, runs), self.refuser.Result(3, 1, []))

    def test_what_is_refused_without_need_is_a_fault(self) -> None:
        self.assertEqual(len(self.refuser.judged(self.part, [self.counting_run(1, 2, 2), self.counting_run(2, 1, 2)]).faults), 1)

    def test_another_answer_is_a_fault_and_so_is_none(self) -> None:
        self.assertEqual(len(self.refuser.judged(self.part, [self.counting_run(1, 2, 2), self.counting_run(2, 1, 1, 1)]).faults), 1)
        self.assertEqual(len(self.refuser.judged(self.part, []).faults), 2)


class AllocationsAreRefused(unittest.TestCase):
    """Over a program that isn't ours: `sort` finds no memory."""

    def setUp(self) -> None:
        self.refuser = tool("refuse-allocations")
        self.folder = tempfile.TemporaryDirectory()
        self.addCleanup(self.folder.cleanup)
        self.library = self.refuser.compiled(Path(self.folder.name))

    def refused_sort(self, first: int, row: int, from_read: bool) -> Any:
        part = self.refuser.Part("sort", Path("/usr/bin/sort"), "", ".*", row, from_read)
        return self.refuser.run_once(part, self.library, first)

    def test_one_is_refused_and_then_none(self) -> None:
        self.assertEqual(self.refused_sort(1, 1, False).refused, 1)
        self.assertEqual(self.refused_sort(1_000_000, 1, False), self.refuser.Run(1_000_000, 0, "0 "))


if __name__ == "__main__":
    unittest.main()
