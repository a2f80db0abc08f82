"""Worked cases: files in which a program's text stands with what is done with it and what has to come out; and orders of the command line.

`crates/st_cases/data/README.md` has the form of the cases, and `examples/orders.txt` that of the orders."""

import re
from dataclasses import dataclass, field
from pathlib import Path
from typing import Iterator

Words = dict[str, str]


@dataclass
class Part:
    """What is done with a text: `session`, `layout`, or, for what a check answers, `ok` or `refused ..`."""

    words: str
    typed: list[str] = field(default_factory=list)
    wanted: list[str] = field(default_factory=list)
    columns: list[str] = field(default_factory=list)

    def add(self, line: str) -> None:
        if line.startswith("| scan "):
            self.columns = line.split()[2:]
        elif line.startswith("| "):
            self.add_scan(line.split()[1:])
        elif line.startswith("> "):
            self.typed.append(line[2:])
        elif line:
            self.wanted.append(line)

    def add_scan(self, values: list[str]) -> None:
        """Takes a scan that stands in columns: its moment, its inputs, and what is shown behind it."""
        cut = self.columns.index("=>")
        pairs = zip(self.columns[:cut], values[1:])
        self.typed.append(" ".join(["scan", values[0], *(f"{path}:={value}" for path, value in pairs if value != "-")]))
        self.wanted.append("ok")
        for path, value in zip(self.columns[cut + 1 :], values[cut + 2 :]):
            self.typed.append(f"show {path}")
            self.wanted.append(f"{path} = {value.removesuffix('!')}" + " forced" * value.endswith("!"))


@dataclass
class Case:
    name: str
    place: str
    text: str
    parts: list[Part]


def written_out(text: str, words: Words) -> str:
    """A text with all that stands in braces written out: what is repeated, as often as a number or the value of a word says, and words."""

    def repeated(found: re.Match[str]) -> str:
        count = words.get(found[1], found[1])
        return "".join(found[3].replace("@", str(it + 1)) for it in range(int(count))) if count.isdigit() else found[0]

    text = re.sub(r"\{([^{}*]*)\*(\n?)([^{}]*)\}\2", repeated, text)  # a line feed behind the star goes with the one behind the brace
    return re.sub(r"\{([^{}]*)\}", lambda it: words.get(it[1], it[0]), text)


def case_of(name: str, place: str, lines: list[str], words: Words) -> Case:
    """The case with these lines, in which the words have values."""
    text, parts = list[str](), list[Part]()
    for line in written_out("\n".join([*lines, ""]), words).split("\n"):
        if line.startswith("-- "):
            parts.append(Part(line[3:]))
        elif parts:
            parts[-1].add(line)
        else:
            text.append(line)
    return Case(name, place, "".join(f"{it}\n" for it in text), parts)


def cases_in(file: Path, shown: str) -> Iterator[Case]:
    """The cases of a file. A block whose last lines are rows behind a line `-- each` is one case for each row."""
    lines = file.read_bytes().decode("latin-1").split("\n")
    starts = [at for at, line in enumerate(lines) if line.startswith("== ")]
    for start, end in zip(starts, [*starts[1:], len(lines)]):
        name, block = lines[start][3:], lines[start + 1 : end]
        each = next((at for at, line in enumerate(block) if line.startswith("-- each ")), None)
        if each is None:
            yield case_of(name, f"{shown}:{start + 1}", block, {})
            continue
        for at, row in enumerate(block[each + 1 :], start + each + 3):
            if row:
                yield case_of(name, f"{shown}:{at}", block[:each], dict(zip(block[each].split()[2:], row.split())))


def cases_on(page: Path, shown: str) -> Iterator[Case]:
    """The examples of a page that are refused: a text with four blanks before each line, and the answer behind it."""
    lines = page.read_text().split("\n")
    for start in (at for at, line in enumerate(lines) if line == "Example:"):
        end = next(at for at in range(start, len(lines)) if lines[at].startswith("Answer: "))
        text = "".join(f"{line.removeprefix('    ')}\n" for line in lines[start + 2 : end - 1])
        yield Case("an example", f"{shown}:{start + 1}", text, [Part(lines[end].split("`")[1])])


@dataclass
class Order:
    """Words of the command line, the status that the program ends with, and parts of what it writes."""

    place: str
    words: list[str]
    status: int
    parts: list[str]


def orders_in(file: Path, shown: str) -> Iterator[Order]:
    """The orders of a file: a line of `$` has the words, the next one the status, and those behind it, to an empty one, the parts."""
    lines = file.read_text().split("\n")
    for at in (at for at, line in enumerate(lines) if line.startswith("$")):
        end = lines.index("", at)
        yield Order(f"{shown}:{at + 1}", lines[at].split()[1:], int(lines[at + 1]), lines[at + 2 : end])
