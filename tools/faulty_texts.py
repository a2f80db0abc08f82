"""Texts with a fault, made of accepted ones, and what has to hold of the message on each."""

import random
import re
import subprocess
import tempfile
from pathlib import Path

from judging import Program

# the pattern of VS Code's problem matcher `$gcc`, and Vim's `%f:%l:%c: %trror: %m`
GCC = re.compile(r"^(.*?):(\d+):(\d*):?\s+(?:fatal\s+)?(warning|error):\s+(.*)$")
VIM = re.compile(r"^(?P<f>[^:]+):(?P<l>\d+):(?P<c>\d+): (?P<t>e)rror: (?P<m>.+)$")
TOKEN = re.compile(
    r"""\(\*.*?\*\) | \(\*.* | [A-Za-z_0-9]+\#-?[A-Za-z_0-9]*(?:\#[A-Za-z_0-9]*)?(?:(?<=[0-9])\.[A-Za-z_0-9]+)?
    | [A-Za-z_0-9]+ | := | => | <= | >= | <> | \.\. | [^\s]""",
    re.X | re.S,
)
WORDS = ["REAL", "Step", "END_IF", ";", ")", "(", ":=", "=", "//", "**", "TRUE", "40000", "T#1s", "Nowhere", "IF", "VAR", ".", "AT", "'", "Ü"]
SHOWN = 160  # bytes of a line that are shown


def tokens_of(text: str) -> list[tuple[int, int]]:
    """Where the tokens of a text begin and end."""
    return [it.span() for it in TOKEN.finditer(text) if not it.group().startswith("(*") or not it.group().endswith("*)")]


def faulty(seed: int, texts: list[str]) -> str:
    """A text in which something was left out, put in or changed."""
    chance = random.Random(seed)
    text = chance.choice(texts)
    start, end = chance.choice(tokens_of(text))
    match chance.randrange(4):
        case 0:
            return text[:start] + text[end:]
        case 1:
            return f"{text[:start]}{chance.choice(WORDS)} {text[start:]}"
        case 2:
            return text[:start] + chance.choice(WORDS) + text[end:]
        case _:
            return text[: start + chance.randrange(end - start + 1)] + chance.choice("xX_9.;") + text[end:]


def checked(program: Program, text: str, *words: str) -> tuple[str, str]:
    """What is answered to a text, and what people are told, also with further words."""
    with tempfile.NamedTemporaryFile(suffix=".st") as file:
        file.write(text.encode())
        file.flush()
        ran = subprocess.run([program.file, "check", file.name, "--program", "Main", *words], capture_output=True, timeout=60)
        return ran.stdout.decode().strip(), ran.stderr.decode().replace(file.name, "text.st")


def line_of(answer: str) -> int | None:
    """The line that is refused."""
    found = re.fullmatch(r"refused [SC]\d+ line (\d+)", answer)
    return int(found[1]) if found else None


def start_by_lines(program: Program, text: str, line: int, answer: str) -> int | None:
    """Where the token at fault begins: each token of the refused line is put on a line of its own, and the text is checked again. It is
    none where the text ends too early, which then is on a line of its own too."""
    before = sum(len(it) for it in text.splitlines(keepends=True)[: line - 1])
    behind = before + len(text.split("\n")[line - 1])
    here = [it for it in tokens_of(text) if before <= it[0] < behind]
    parts, at = [], 0
    for start, _ in here:
        parts.append(text[at:start])
        at = start
    again, _ = checked(program, "\n".join([*parts, text[at:]]) + "\n ")
    found = line_of(again)
    if found is None or again.split(" line ")[0] != answer.split(" line ")[0]:
        return None
    place = found - line - 1
    return here[place][0] if 0 <= place < len(here) else None


def failure_under(text: str, line: int, column: int, source: str, carets: str) -> str | None:
    """How a line and a column don't lie in a text, or the line isn't shown with the first caret under the column."""
    lines = text.split("\n")
    meant = lines[line - 1] if line <= len(lines) else ""
    if not 1 <= column <= len(meant) + 1:
        return f"line {line} has no column {column}"
    if len(meant.encode()) <= SHOWN and (source != f"    {meant}" or carets.find("^") != column + 3):
        return f"{carets!r} doesn't stand under column {column} of {source!r}"
    return None


def failure_in_faulty(program: Program, text: str) -> str | None:
    """How the message on a text isn't as it has to be."""
    answer, told = checked(program, text)
    line = line_of(answer)
    if answer == "ok" or line == 0:
        return None
    if line is None:
        return f"the answer is {answer!r}"
    head, source, carets, *_ = [*told.split("\n"), "", "", ""]
    gcc, vim = GCC.match(head), VIM.match(head)
    if not gcc or not vim:
        return f"no editor finds {head!r}"
    column = int(gcc[3])
    if (int(gcc[2]), int(vim["l"]), int(vim["c"])) != (line, line, column):
        return f"{head!r} is on another line than {answer!r}"
    if failure := failure_under(text, line, column, source, carets):
        return failure
    start = start_by_lines(program, text, line, answer)
    if start is not None and start != sum(len(it) + 1 for it in text.split("\n")[: line - 1]) + column - 1:
        return f"the caret stands in column {column} of line {line}, and the fault elsewhere"
    return None


def accepted_texts(examples: Path) -> list[str]:
    """The texts of the examples."""
    return [it.read_text() for it in sorted(examples.glob("*.st"))]
