"""Tests of what makes faulty texts: a seed gives one text, tokens are found, and the patterns of editors take a message's first line."""

import sys
import unittest
from pathlib import Path

sys.dont_write_bytecode = True
sys.path.insert(0, str(Path(__file__).resolve().parent.parent))

from faulty_texts import GCC, VIM, accepted_texts, faulty, line_of, tokens_of  # noqa: E402
from many_faults import places_of, told_in, with_faults, with_very_many  # noqa: E402

HEAD = "plant/tank.st:3:14: error: C4: `40000` is outside the range of SINT, -128 to 127"
EXAMPLES = Path(__file__).resolve().parent.parent.parent / "examples"


class TextsAreMade(unittest.TestCase):
    def test_a_seed_gives_one_text_and_most_differ(self) -> None:
        texts = accepted_texts(EXAMPLES)
        self.assertEqual(faulty(7, texts), faulty(7, texts))
        self.assertGreater(len({faulty(seed, texts) for seed in range(50)}), 40)

    def test_comments_are_no_tokens(self) -> None:
        text = "A (* x *) := T#1.5s + 16#FF; (* open"
        self.assertEqual([text[start:end] for start, end in tokens_of(text)], ["A", ":=", "T#1.5s", "+", "16#FF", ";", "(* open"])


class FaultsArePutIn(unittest.TestCase):
    def test_statements_and_declarations_have_their_places(self) -> None:
        text = "PROGRAM Main VAR A : INT; END_VAR A := 1; STEP S : A(N); END_STEP VAR CONSTANT B : INT; END_VAR END_PROGRAM"
        self.assertEqual(places_of(text), ([text.index("; STEP") + 1], [text.index(" A :")]))

    def test_each_place_is_that_of_a_token_at_fault(self) -> None:
        texts = accepted_texts(EXAMPLES)
        for seed in range(50):
            text, wanted = with_faults(seed, texts)
            lines, starts = text.split("\n"), [start for start, _ in tokens_of(text)]
            for line, column, number in wanted:
                start = sum(len(it) + 1 for it in lines[: line - 1]) + column - 1
                self.assertIn(start, starts)
                self.assertEqual(text.startswith("Nowhere", start), number == "C1")
            self.assertEqual(wanted, sorted(wanted))
            self.assertEqual(sum(number == "C1" for *_, number in wanted), text.count("Nowhere"))

    def test_no_more_than_a_hundred_are_wanted(self) -> None:
        self.assertEqual([len(with_very_many(count)[1]) for count in (99, 100, 101)], [99, 100, 100])


class MessagesAreFound(unittest.TestCase):
    def test_places_and_numbers_are_read_of_what_is_told(self) -> None:
        self.assertEqual(list(told_in(f"{HEAD}\n    A : SINT := 40000;\n  help: choose\n{HEAD}")), [(3, 14, "C4")] * 2)

    def test_the_pattern_of_an_editor_takes_all_parts(self) -> None:
        found = GCC.match(HEAD)
        assert found
        self.assertEqual(found.groups()[:4], ("plant/tank.st", "3", "14", "error"))

    def test_vim_takes_all_parts(self) -> None:
        found = VIM.match(HEAD)
        assert found
        self.assertEqual((found["f"], found["l"], found["c"]), ("plant/tank.st", "3", "14"))

    def test_the_line_of_an_answer(self) -> None:
        self.assertEqual(line_of("refused C10 line 0"), 0)
        self.assertIsNone(line_of("ok"))


if __name__ == "__main__":
    unittest.main()
