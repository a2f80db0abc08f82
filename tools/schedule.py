"""Which crates the program stands on, which of them are proved, and about how long the proofs of the others take."""

import csv
import re
from pathlib import Path

Crates = dict[str, list[str]]  # each with the crates of the repository that it names, lowest first

PARTS = ("src", "specs", "proofs")
SHARED = 1.7  # how much sooner a check ends that several processors share
UNKNOWN = 30.0, 0.007  # the seconds of a check that wasn't measured: of any crate, and of each byte of its code


def crates_below(root: Path, top: str) -> Crates:
    """A crate of crates.txt and those that it stands on, those with the fewest others below them first, as rt takes them."""
    named: Crates = {}
    for line in (root / "crates.txt").read_text().splitlines():
        found = re.match(r"(\w+)[^:#]*:([^#]*)", line)
        if found:
            named[found[1]] = found[2].split()
    below: dict[str, set[str]] = {}

    def walk(name: str) -> set[str]:
        if name not in below:
            mine = [it for it in named[name] if it in named]
            below[name] = set(mine).union(*(walk(it) for it in mine))
        return below[name]

    walk(top)
    return {it: [other for other in named[it] if other in named] for it in sorted(below, key=lambda it: len(below[it]))}


def narrow_end(crates: Crates) -> list[str]:
    """The crates at the end each of which stands on the one before it, so that no two of them can be proved at a time."""
    below: dict[str, set[str]] = {}
    for name, mine in crates.items():
        below[name] = set(mine).union(*(below.get(it, set()) for it in mine))
    end: list[str] = []
    for name in reversed(crates):
        if end and name not in below[end[0]]:
            break
        end.insert(0, name)
    return end


def files_of(root: Path, crate: str, parts: tuple[str, ...] = PARTS) -> list[Path]:
    return [it for part in parts for it in (root / "crates" / crate / part).rglob("*") if it.is_file()]


def kept_crates(root: Path, crates: Crates) -> set[str]:
    """Those whose libraries were built after their sources were written, and those of all that they stand on."""
    kept: set[str] = set()
    newest: dict[str, float] = {}
    for name, below in crates.items():
        stamp = root / "crates" / name / "out" / "rlib" / "stamp"
        newest[name] = max([it.stat().st_mtime for it in files_of(root, name)] + [newest[it] for it in below], default=0)
        if stamp.is_file() and newest[name] <= stamp.stat().st_mtime and kept.issuperset(below):
            kept.add(name)
    return kept


def seconds_of(root: Path, crate: str, measured: dict[str, float]) -> float:
    size = sum(it.stat().st_size for it in files_of(root, crate, ("src",)))
    return measured.get(crate, UNKNOWN[0] + UNKNOWN[1] * size)


class Schedule:
    """When each of these crates is likely to be proved, so many at a time, each after those that it stands on. Those at the end share
    the processors once nothing else is left."""

    def __init__(self, root: Path, crates: Crates, lanes: int) -> None:
        with open(root / "docs" / "checks.csv", newline="", encoding="utf-8") as file:
            measured = {row["crate"]: float(row["seconds"]) for row in csv.DictReader(file)}
        free, end = [0.0] * lanes, set(narrow_end(crates))
        self.ends: dict[str, float] = {}
        for name, below in crates.items():
            lane = free.index(min(free))
            start = max([free[lane], *(self.ends[it] for it in below if it in self.ends)])
            is_shared = lanes > 1 and name in end and start >= max(free)
            free[lane] = self.ends[name] = start + seconds_of(root, name, measured) / (SHARED if is_shared else 1)

    def left(self, done: set[str], seconds: float) -> float:
        """About how many seconds the others take, where these took so many."""
        whole = max(self.ends.values(), default=0)
        part = max((end for name, end in self.ends.items() if name in done), default=0)
        return seconds * (whole - part) / part if part else 0
