import os
import tempfile
import unittest

from yarrow_tools.asking import NoSource, sources
from yarrow_tools.lint import findings
from yarrow_tools.program import Answer
from yarrow_tools.source import Source
from yarrow_tools.spec_refusals import spec_refusal

HEAD = "yarrow-module 1\nmodule m\n"


class Recorded:
    """Answers in order, and what was asked of module m."""

    def __init__(self, *printed):
        self.printed, self.asked = list(printed), []

    def __call__(self, contents):
        self.asked.append(contents["m"].decode())
        line = self.printed.pop(0)
        return Answer(line.encode() + b"\n", 0 if line.startswith("done") else 1)


def lint(text, *printed, most=100):
    ask = Recorded(*printed)
    found, answer = findings([Source("m.yar", text.encode())], ask, most)
    return [str(it) for it in found], ask.asked, answer


class Lint(unittest.TestCase):
    def test_a_refused_definition_with_a_type_becomes_an_assumption(self):
        text = HEAD + "assume T : *\ndefine a : T := T\ndefine b : T := a T\nend\n"
        found, asked, _ = lint(text, "refused m Declaration 4 term - NotConvertible - * ; m.T", "refused m Declaration 5 term 0 NotProduct m.T", "done 3")
        self.assertEqual(found, ["m.yar:4:17-17: This has the type *, and should have the type T.", "m.yar:5:17-17: This is applied to an argument, and is no function: it has the type T."])
        self.assertEqual(asked[1], HEAD + "assume T : *\nassume a : T\ndefine b : T := a T\nend\n")
        self.assertEqual(asked[2], HEAD + "assume T : *\nassume a : T\nassume b : T\nend\n")

    def test_other_refused_lines_go_and_what_they_declared_is_not_missed(self):
        text = HEAD + "define a := b\ndefine c : a := a\ndefine d := c\ndefine e := f\nend\n"
        found, asked, _ = lint(
            text,
            "refused m Declaration 3 UnknownName 12 b",
            "refused m Declaration 4 UnknownName 11 a",
            "refused m Declaration 5 UnknownName 12 c",
            "refused m Declaration 6 UnknownName 12 f",
            "done 0",
        )
        self.assertEqual([it.split(":")[1] for it in found], ["3", "6"])
        self.assertEqual(asked[-1], HEAD + "\n\n\n\nend\n")

    def test_a_flaw_that_may_come_of_an_opaque_definition_is_left_out(self):
        text = HEAD + "define nat : * := wrong\ndefine two : * := nat\ndefine zero : two := f\nend\n"
        found, _, _ = lint(
            text,
            "refused m Declaration 3 UnknownName 18 wrong",
            "refused m Declaration 5 term - NotConvertible - @A:*. A ; m.two",
            "done 3",
        )
        self.assertEqual([it.split(":")[1] for it in found], ["3"])

    def test_forms_are_mended_where_a_line_is_missing_or_misspelled(self):
        text = "yarrow-module 2\nmodule n\nDefine a := b\nend."
        found, asked, _ = lint(text, "refused m BadFile 1 Form", "refused m BadFile 2 Form", "refused m BadFile 3 Form", "refused m BadFile 4 Form", "done 0")
        self.assertEqual([it.split(":")[1] for it in found], ["1", "2", "3", "4"])
        self.assertEqual(asked[-1], HEAD + "\nend\n")
        _, asked, _ = lint(HEAD, "refused m BadFile 3 Form", "done 0")
        self.assertEqual(asked[-1], HEAD + "end\n")
        _, asked, _ = lint(HEAD + "end\nend\nfoo\n", "refused m BadFile 4 Form", "done 0")
        self.assertEqual(asked[-1], HEAD + "end\n\n\n")

    def test_where_the_head_is_missing_nothing_more_is_asked(self):
        found, asked, _ = lint("module m\ndefine a := b\nend\n", "refused m BadFile 1 Form", "done 0")
        self.assertEqual((len(found), len(asked)), (1, 1))

    def test_a_fault_in_the_type_takes_the_line(self):
        text = HEAD + "define a : b := c\nend\n"
        _, asked, _ = lint(text, "refused m Declaration 3 UnknownName 11 b", "done 0")
        self.assertEqual(asked[-1], HEAD + "\nend\n")
        _, asked, _ = lint(text, "refused m Declaration 3 UnknownName 16 c", "done 0")
        self.assertEqual(asked[-1], HEAD + "assume a : b\nend\n")

    def test_no_more_than_the_most_is_found(self):
        text = HEAD + "foo\n" * 9 + "end\n"
        found, asked, _ = lint(text, *(f"refused m BadFile {it} Form" for it in range(3, 12)), most=4)
        self.assertEqual((len(found), len(asked)), (4, 4))

    def test_nothing_is_found_where_all_hold(self):
        found, asked, answer = lint(HEAD + "end\n", "done 0")
        self.assertEqual((found, len(asked), answer.status), ([], 1, 0))

    def test_a_refusal_without_a_line_ends_it(self):
        found, asked, _ = lint(HEAD + "end\n", "refused m ContextFull 0")
        self.assertEqual((found, len(asked)), (["m.yar:1:1-15: There are more than 200,000 declarations."], 1))


class Words(unittest.TestCase):
    def test_what_can_be_no_module(self):
        for word in ("my-module", "a.b", "let", "_", "1a", ""):
            with self.subTest(word=word), self.assertRaisesRegex(NoSource, "can't be the name of a module"):
                sources([word])

    def test_no_file_and_two_folders(self):
        with self.assertRaisesRegex(NoSource, "^no file none/m.yar$"):
            sources(["none/m"])
        with tempfile.TemporaryDirectory() as folder:
            os.mkdir(os.path.join(folder, "other"))
            paths = [os.path.join(folder, "a.yar"), os.path.join(folder, "other", "b.src")]
            for path in paths:
                with open(path, "w") as file:
                    file.write(HEAD)
            self.assertEqual([it.module for it in sources(paths[:1])], ["a"])
            with self.assertRaisesRegex(NoSource, "one folder"):
                sources(paths)


class Specs(unittest.TestCase):
    def test_a_refused_specification_has_its_line(self):
        text = '# a system\nsorts = ["*s"]\naxioms = []\nrules = []\n'
        found = spec_refusal("refused system Shape sorts", text)
        self.assertEqual(found.line, 2)
        self.assertIn("A sort is spelled *, #, or ' and an identifier", found.sentence)
        self.assertEqual(spec_refusal("refused system RuleClash 0 1", text).line, 4)
        self.assertEqual(spec_refusal("refused system RuleClash 0 1", text).sentence, "The rules at places 0 and 1 give two sorts two results; the first has place 0.")
        self.assertEqual(spec_refusal("refused system UnknownSort Axiom 2", text).line, 3)
        self.assertEqual(spec_refusal("refused system Shape name", "name = 1\n" + text).sentence, "name is no key of a specification; they are sorts, axioms and rules.")
        self.assertEqual(spec_refusal("refused system NotToml", text).line, 1)


if __name__ == "__main__":
    unittest.main()
