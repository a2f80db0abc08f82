"""The programs of bench/, which are measured beside Lua: NAME.st, NAME.lua and NAME.c do the same work in each scan."""

import csv
import math
from dataclasses import dataclass
from pathlib import Path

BENCH = Path(__file__).resolve().parent.parent / "bench"


@dataclass(frozen=True)
class Bench:
    """A program: how many scans a run has, what the variable R is after them, and what the program does."""

    name: str
    scans: int
    result: str
    what: str

    def file(self, suffix: str) -> str:
        return str(BENCH / f"{self.name}{suffix}")

    def session(self) -> str:
        """The lines of a run: the scans, one millisecond after another, and a question for the result."""
        return "".join(f"scan {now}\n" for now in range(self.scans)) + "show Main.R\n"


def programs() -> list[Bench]:
    with open(BENCH / "programs.csv", newline="", encoding="utf-8") as it:
        return [Bench(row["program"], int(row["scans"]), row["result"], row["what"]) for row in csv.DictReader(it)]


def result_of(written: str) -> str:
    """The result that a run writes last: `R`, or what `show` replies."""
    return written.split()[-1] if written.split() else ""


def mean(ratios: list[float]) -> float:
    """The geometric mean."""
    return math.exp(sum(map(math.log, ratios)) / len(ratios))
