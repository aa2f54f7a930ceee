import unittest

from yarrow_prompt.table import first_word
from yarrow_prompt.typed import is_open, read, unsendable, whole_lines

OPEN = [r"infer (", r"infer \x:A.", "infer f (g a", "define a :=", "define a :", "assume a : A ->", "equal a ;", r"infer \ ", "infer let", "infer let x := a : A in", "infer a -> % why"]
WHOLE = [r"infer \x:A. x", "infer a)", "infer a.", r"infer \x:A. x.", "intros.", "foo (", "infer (∧", "names (", "save a:", "", "% infer (", "quit"]


class Typed(unittest.TestCase):
    def test_comments_go_and_signs_are_the_program_s(self):
        for text, line in [
            ("  infer x % a comment", "infer x"),
            ("% infer x", ""),
            ("   ", ""),
            ("infer ∀x:A. λy:A→□. y", "infer @x:A. \\y:A->#. y"),
            ("infer aλ Πx:A. x", "infer aλ @x:A. x"),
            ("save 100%λ.prove", "save 100%λ.prove"),
            ("infer x\r", "infer x"),
        ]:
            self.assertEqual(read(text), line)

    def test_a_command_of_the_program_needs_no_blank(self):
        words = {"exact(x)": "exact", r"  infer\x:A. x": "infer", "exact": "exact", "exact.x": "exact.x", "save(x)": "save(x)", "exacts x": "exacts", "foo(x)": "foo(x)", "": "", "infer'a": "infer"}
        self.assertEqual({it: first_word(it) for it in words}, words)

    def test_which_lines_go_on(self):
        for text in OPEN:
            self.assertTrue(is_open(text), text)
        for text in WHOLE:
            self.assertFalse(is_open(text), text)

    def test_lines_of_a_script_go_on_with_a_blank(self):
        lines = ["% head", "define a := % of this", "  (b % and that", "", "\tc)", "   % nothing", " infer d", "quit", "  infer e"]
        self.assertEqual(list(whole_lines(lines)), [(2, "define a := (b c) infer d"), (8, "quit infer e")])
        self.assertEqual(list(whole_lines(["  infer d", "infer e"])), [(1, "infer d"), (2, "infer e")])
        self.assertEqual(list(whole_lines([])), [])

    def test_typed_lines_go_on_while_they_can_t_be_whole(self):
        lines = ["define a := (b", "c)", "infer d ->", "% nothing", "e", "infer (", "", " f", "quit"]
        self.assertEqual([it for _, it in whole_lines(lines, typed=True)], ["define a := (b c)", "infer d -> e", "infer (", "f", "quit"])

    def test_what_can_t_be_sent(self):
        self.assertIsNone(unsendable("a" * 65_533))
        self.assertEqual(unsendable("é" * 32_767), "The line has 65,534 bytes, and at most 65,533 are read.")
        self.assertEqual(unsendable("a\udcff"), "This line is not UTF-8.")
        self.assertEqual(unsendable("a\nb"), "This is more than one line.")


if __name__ == "__main__":
    unittest.main()
