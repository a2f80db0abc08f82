"""Texts with several faults, put into accepted ones at places that are known, and whether `check --all` tells them all."""

import random
import re
from collections.abc import Iterator

from faulty_texts import GCC, checked, failure_under, tokens_of
from judging import Program

FAULTS = 100  # the most that are told
UNKNOWN = re.compile(r"Nowhere\d+")
STATEMENTS = [  # `@` is a name that isn't there
    "@ := 1;",
    "@ := @ + (3 * @[@]);",
    "IF @ > 1 THEN ; ELSIF NOT @ THEN @(IN := @); END_IF;",
    "FOR @ := 1 TO 2 DO @ := @; END_FOR;",
]
DECLARATIONS = [("$ : @;", "C1"), ("$ : SINT := 300;", "C4"), ("$ : INT := T#1s;", "C3")]  # `$` is a new name
UNITS = [
    ("FUNCTION $ : INT VAR_INPUT A : INT; END_VAR $ := $(A); END_FUNCTION", "C6", "$"),
    ("FUNCTION $ : INT VAR A, B, a : INT; END_VAR $ := 1; END_FUNCTION", "C2", "a :"),
    ("TYPE $ : ARRAY [1..2] OF $; END_TYPE", "C6", "$"),
    ("TYPE $ : ARRAY [5..1] OF INT; END_TYPE", "C4", "1]"),
    ("PROGRAM $ VAR A : INT; END_VAR EXIT; END_PROGRAM", "C7", "EXIT"),
    ("PROGRAM $ VAR CONSTANT A : INT := 1; END_VAR A := 2; END_PROGRAM", "C5", "A := 2"),
    ("PROGRAM $ INITIAL_STEP T: END_STEP TRANSITION FROM T TO S := TRUE; END_TRANSITION END_PROGRAM", "C8", "S :="),
]
ENDS = {"STEP": "END_STEP", "INITIAL_STEP": "END_STEP", "TRANSITION": "END_TRANSITION", "TYPE": "END_TYPE"}
ENDS |= {it: "END_VAR" for it in ("VAR", "VAR_INPUT", "VAR_OUTPUT")}
Place = tuple[int, int, str]  # a line, a column and a number


def places_of(text: str) -> tuple[list[int], list[int]]:
    """Where statements may begin in a text, and where declarations of variables that are no inputs may: the ends of the tokens before."""
    statements, declarations, until = [], [], None
    words = [(text[start:end].upper(), end) for start, end in tokens_of(text)]
    for (word, end), (behind, _) in zip(words, [*words[1:], ("", 0)]):
        until = None if word == until else until or ENDS.get(word)
        if word == ";" and until is None:
            statements.append(end)
        if word == "VAR" and behind not in ("CONSTANT", "RETAIN", "NON_RETAIN"):
            declarations.append(end)
    return statements, declarations


def with_faults(seed: int, texts: list[str]) -> tuple[str, list[Place]]:
    """A text with faults, and where each is to be told."""
    chance, numbers, wanted = random.Random(seed), iter(range(1, 1000)), []

    def named(shape: str) -> str:
        return re.sub("@", lambda _: f"Nowhere{next(numbers)}", shape).replace("$", f"Odd{next(numbers)}")

    text = chance.choice(texts)
    statements, declarations = places_of(text)
    inserted = [(it, named(chance.choice(STATEMENTS))) for it in chance.sample(statements, min(3, len(statements)))]
    for place in chance.sample(declarations, min(2, len(declarations))):
        shape, number = chance.choice(DECLARATIONS)
        written = named(shape)
        inserted.append((place, written))
        wanted += [(written, number, written.split()[-1].rstrip(";"))] if number != "C1" else []
    for shape, number, at in chance.sample(UNITS, 2):
        written = named(shape)
        inserted.append((len(text), written))
        wanted.append((written, number, at.replace("$", written.split()[1])))
    for place, written in sorted(inserted, reverse=True):
        text = f"{text[:place]}\n{written}\n{text[place:]}"
    starts = [(it.start(), "C1") for it in UNKNOWN.finditer(text)]
    starts += [(text.index(written) + written.index(at), number) for written, number, at in wanted]
    return text, [(*place_of(text, start), number) for start, number in sorted(starts)]


def with_very_many(count: int) -> tuple[str, list[Place]]:
    """A text with so many faults, and where those that are told are."""
    lines = ["PROGRAM Main", *(f"Nowhere{it} := 1;" for it in range(count)), "END_PROGRAM", ""]
    return "\n".join(lines), [(it + 2, 1, "C1") for it in range(min(count, FAULTS))]


def place_of(text: str, start: int) -> tuple[int, int]:
    """The line and the column of a place of a text."""
    before = text[:start].split("\n")
    return len(before), len(before[-1]) + 1


def told_in(told: str) -> Iterator[Place]:
    """Where each message stands, and its number."""
    for line in told.split("\n"):
        if found := GCC.match(line):
            yield int(found[2]), int(found[3]), found[5].partition(":")[0]


def failure_in_all(program: Program, text: str, wanted: list[Place]) -> str | None:
    """How `check --all` doesn't tell the faults of a text, in order, or what it tells first isn't what `check` does."""
    answer, first = checked(program, text)
    answer_again, told = checked(program, text, "--all")
    came = list(told_in(told))
    if answer != answer_again or not told.startswith(first):
        return f"`check` begins otherwise: {first.partition(chr(10))[0]!r}"
    lost, more = [it for it in wanted if it not in came], [it for it in came if it not in wanted]
    if lost or more:
        return f"{lost} aren't told, and {more} are"
    if came != wanted:
        return f"{came} aren't in order"
    lines = told.split("\n")
    heads = [at for at, line in enumerate(lines) if GCC.match(line)]
    under = (failure_under(text, line, column, *lines[at + 1 : at + 3]) for at, (line, column, _) in zip(heads, came))
    return next(filter(None, under), None)
