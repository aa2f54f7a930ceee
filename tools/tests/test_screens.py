import unittest

from yarrow_tools.batch import shown
from yarrow_tools.compare import rows
from yarrow_tools.listing import table
from yarrow_tools.program import Answer
from yarrow_tools.screen import columns, marked
from yarrow_tools.source import Source
from yarrow_tools.specs import system_names, systems, systems_with, tomllib

HEAD = "yarrow-module 1\nmodule m\n"


class Marked(unittest.TestCase):
    def test_carets_are_below_the_stretch(self):
        self.assertEqual(marked("define a := f b", 12, 15, 80), ["  define a := f b", "              ^^^"])
        self.assertEqual(marked("f", 1, 2, 80), ["  f", "   ^"])

    def test_wide_and_accented_letters(self):
        self.assertEqual(marked("é f", 2, 3, 80)[1], "    ^")
        self.assertEqual(marked("漢字 f", 3, 4, 80)[1], "       ^")
        self.assertEqual(marked("\tf", 1, 2, 80), ["   f", "   ^"])

    def test_no_line_is_wider_than_the_screen(self):
        text = "a b " * 60
        for width in (30, 44, 72):
            for start in range(0, len(text), 7):
                lines = marked(text, start, start + 20, width)
                self.assertLessEqual(max(map(columns, lines)), width)
                caret = lines[1].index("^")
                self.assertEqual(lines[0][caret], text[start])

    def test_no_line_of_wide_letters_is_wider_than_the_screen(self):
        text = "漢字 b " * 20
        for width in (30, 44, 72):
            for start in (*range(0, len(text), 3), len(text)):
                lines = marked(text, start, start + 5, width)
                self.assertLessEqual(max(map(columns, lines)), width)
                below = [sign for place, sign in enumerate(lines[0]) if columns(lines[0][:place]) == lines[1].index("^")]
                self.assertEqual(below[:1], list(text[start : start + 1]))


class Batch(unittest.TestCase):
    def test_a_refusal_at_a_terminal(self):
        source = Source("dir/m.yar", (HEAD + "assume T : *\ndefine a : T -> T := \\x:T. id x\nend\n").encode())
        self.assertEqual(
            shown(source, "refused m Declaration 4 term 1.1 NoRule # *", 80)[:3],
            [
                "dir/m.yar:4:31-31: This needs a product of a domain of sort # and a body of sort *, and the system has no rule (#, *).",
                "  define a : T -> T := \\x:T. id x",
                "                                ^",
            ],
        )
        self.assertEqual(shown(source, "done 3", 80), [])


class Compared(unittest.TestCase):
    def test_a_row_for_each_system(self):
        source = Source("m.yar", (HEAD + "define a : T := \\x:T. x\nend\n").encode())
        answers = {"A": ("refused m Declaration 3 term - NoRule # *", 1), "B": ("done 1", 0), "C": ("refused m Declaration 3 UnknownName 11 T", 1), "D": ("", 7)}
        found = rows(source, list(answers), lambda it: Answer(answers[it][0].encode() + b"\n", answers[it][1]))
        self.assertEqual(
            found,
            [
                ("A", "3:17-23 a: no rule (#, *)"),
                ("B", "all hold: done 1"),
                ("C", "3:12-12 a: T is no binder and no declaration before this line."),
                ("D", "no memory was left"),
            ],
        )

    def test_what_is_no_module_is_said_once(self):
        source = Source("m.yar", (HEAD + "foo\nend\n").encode())
        found = rows(source, ["A", "B"], lambda it: Answer(b"refused m BadFile 3 Form\n", 1))
        self.assertEqual([it for it, _ in found], ["all"])


@unittest.skipIf(tomllib is None, "the files of systems are read by Python 3.11 or later")
class Systems(unittest.TestCase):
    def test_all_that_come_along_are_read(self):
        self.assertEqual(sorted(it.name for it in systems()), system_names())

    def test_which_have_a_rule(self):
        self.assertEqual(systems_with("'triangle", "#"), ["U"])
        self.assertIn("LP", systems_with("*", "#"))
        self.assertNotIn("L2", systems_with("*", "#"))

    def test_the_table(self):
        lines = table(systems())
        self.assertEqual(lines[0].split(), ["system", "axioms", "rules"])
        self.assertTrue(any(it.split() == ["L2", "*", ":", "#", "(*,", "*)", "(#,", "*)"] for it in lines))
        self.assertLessEqual(max(map(len, lines)), 130)
        self.assertLess(len(lines), 24)


if __name__ == "__main__":
    unittest.main()
