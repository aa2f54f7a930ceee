import io
import os
import unittest

from yarrow_prompt.drawing import Screen, folded
from yarrow_tools.screen import columns

TERM = r"le_trans : @a:nat. @b:nat. @c:nat. le a b -> le b c -> le a c"


class Tty(io.StringIO):
    encoding = "utf-8"

    def isatty(self):
        return True


class Folded(unittest.TestCase):
    def test_at_arrows_and_dots(self):
        self.assertEqual(folded("", TERM, 4, 40), ["le_trans : @a:nat. @b:nat. @c:nat.", "    le a b -> le b c -> le a c"])
        self.assertEqual(folded("", "f a b", 4, 40), ["f a b"])

    def test_what_has_no_such_place_at_blanks_and_then_anywhere(self):
        self.assertEqual(folded("", "f " + "a " * 20 + "b", 4, 24)[0], "f a a a a a a a a a a a")
        self.assertEqual(folded("x : ", "a" * 50, 4, 30), ["x :", "    " + "a" * 26, "    " + "a" * 24])
        self.assertEqual(folded("a long head : ", "a" * 60 + " b", 4, 30), ["a long head :", "    " + "a" * 26, "    " + "a" * 26, "    " + "a" * 8 + " b"])
        self.assertEqual(folded("  ", "a" * 40, 2, 30), ["  " + "a" * 28, "  " + "a" * 12])

    def test_no_line_is_wider_than_the_screen(self):
        for text in (TERM, "漢字 " * 30, "漢" * 90, "a" * 200, TERM * 5):
            for head in ("", "  ", "computed: ", "a_name_that_is_rather_long : "):
                for width in (20, 30, 44, 72):
                    lines = folded(head, text, 4, width)
                    self.assertLessEqual(max(map(columns, lines)), width, (head, text, width))
                    self.assertEqual("".join(lines).replace(" ", ""), (head + text).replace(" ", ""))


class Screens(unittest.TestCase):
    def test_colours_on_a_terminal_that_wants_them(self):
        for environment, colour in (({"TERM": "xterm"}, True), ({"TERM": "dumb"}, False), ({}, False), ({"TERM": "xterm", "NO_COLOR": "1"}, False)):
            self.assertEqual(Screen(Tty(), environment).colour, colour)
        self.assertFalse(Screen(io.StringIO(), {"TERM": "xterm"}).colour)

    def test_the_transcript_has_no_colours(self):
        screen = Screen(Tty(), {"TERM": "xterm"})
        screen.transcript = io.StringIO()
        screen.mark("infer a b", (6, 7))
        self.assertEqual(screen.out.getvalue(), "  infer a b\n\x1b[31m        ^\x1b[0m\n")
        self.assertEqual(screen.transcript.getvalue(), "  infer a b\n        ^\n")

    def test_signs_of_mathematics(self):
        screen = Screen(Tty(), {"TERM": "dumb"})
        screen.unicode = True
        screen.term("", r"\x:A. x : @x:A. A -> #")
        self.assertEqual(screen.out.getvalue(), "λx:A. x : Πx:A. A → □\n")

    def test_a_long_reply_is_cut(self):
        screen = Screen(io.StringIO(), {})
        screen.term("", "a " * 20_000)
        self.assertIn("(40,000 characters)", screen.out.getvalue())
        self.assertLess(len(screen.out.getvalue()), 22_000)

    def test_waiting_is_said_once_and_wiped_away(self):
        screen = Screen(Tty(), {"TERM": "xterm"})
        screen.wait(True)
        screen.wait(True)
        screen.put("a")
        self.assertEqual(screen.out.getvalue(), "computing, Ctrl-C stops ..\r\x1b[Ka\n")
        quiet = Screen(io.StringIO(), {"TERM": "xterm"})
        quiet.wait(True)
        self.assertEqual(quiet.out.getvalue(), "")

    def test_what_can_t_be_written(self):
        with open(os.devnull, "r") as closed, self.assertRaises(OSError):
            Screen(closed, {}).put("a")


if __name__ == "__main__":
    unittest.main()
