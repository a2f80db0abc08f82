"""Texts and sessions that end without a line feed, and bytes that no file of cases holds."""

from typing import Iterator

from cases import Case, Part

FIRST = "PROGRAM Main VAR A : INT := 3; B : BOOL; END_VAR A := A + 1; END_PROGRAM"

# Lines of sessions over it that lack their line feed, and the replies. A carriage return is then a byte as others are.
LAST_LINES = [
    ("status", "running 0 forces 0 undo 0"),
    ("status\r", "refused O11"),
    ("show Main.A\r", "refused O1"),
    ("write Main.A 5\r", "refused O3"),
    ("status \r", "refused O11"),
]

# A comment with bytes of all kinds, and one behind it.
BYTES = "(*\x80\xff\n*)\x80"


def ends() -> Iterator[Case]:
    """Beginnings of the first program but the empty one, each of which ends too early, or in the middle of a word; and the bytes."""
    for end in range(1, len(FIRST)):
        text = FIRST[:end]
        number = "S1" if text.endswith("END_") else "S2"
        yield Case("a beginning of a program", f"its first {end} bytes", text, [Part(f"refused {number} line 1")])
    yield Case("bytes of all kinds in a comment, and one behind it", "bytes", BYTES, [Part("refused S1 line 2")])
