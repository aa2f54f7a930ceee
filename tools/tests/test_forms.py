import unittest

from yarrow_tools.forms import form_note
from yarrow_tools.source import Source

HEAD = "yarrow-module 1\nmodule m\n"
DEFINE = "The form of the line is: define X := TERM, or define X : TERM := TERM"

# A file, the line that is refused as `Form`, and what is said of it.
LINES = [
    ("-- my module\n" + HEAD, 1, "A comment is a line that begins with %."),
    ("yarrow module 1\nmodule m\nend\n", 1, "The first line must be: yarrow-module 1"),
    ("yarrow-module 2\nmodule m\nend\n", 1, "The first line must be: yarrow-module 1"),
    ("\ufeff" + HEAD + "end\n", 1, "The file begins with a byte-order mark, which must go: save it as UTF-8 without one."),
    ("", 1, "The file is empty, and its first line must be: yarrow-module 1"),
    ("yarrow-module 1\nModule m\nend\n", 2, "The second line must be: module m, as the file is called."),
    ("yarrow-module 1\nmodule  m\nend\n", 2, "The second line must be: module m, as the file is called."),
    ("yarrow-module 1\nmodule other\nend\n", 2, "The second line must be: module m, as the file is called."),
    (HEAD + "def a := b\nend\n", 3, "def is define here: define X := TERM, or define X : TERM := TERM"),
    (HEAD + "Definition a := b.\nend\n", 3, "Definition is define here: define X := TERM, or define X : TERM := TERM"),
    (HEAD + "theorem t : A := b\nend\n", 3, "theorem is define here: define X := TERM, or define X : TERM := TERM"),
    (HEAD + "axiom a : A\nend\n", 3, "axiom is assume here: assume X : TERM"),
    (HEAD + "import logic\nend\n", 3, "import is uses here: uses M"),
    (HEAD + "Define a := b\nend\n", 3, "Words are written in small letters: define"),
    (HEAD + "define a := b\nEnd\n", 4, "The last line must be: end"),
    (HEAD + "define a := b\nend.\n", 4, "The last line must be: end"),
    (HEAD + "define a := b\nend *\n", 4, "The last line must be: end"),
    (HEAD + "define a := b\n", 4, "The file ends, and its last line must be: end"),
    (HEAD + "end\ndefine a := b\n", 4, "Nothing may come after end."),
    (HEAD + "define a := b\nuses logic\nend\n", 4, "A line with uses comes before all parameters and declarations."),
    (HEAD + "define a := b\nparameter c : d\nend\n", 4, "A parameter comes before all declarations."),
    (HEAD + "   \nend\n", 3, "A line of blanks alone isn't empty: take the blanks out."),
    (HEAD + "define a :=\n  b\nend\n", 4, "A declaration is one line, and this one begins with a blank. The command join makes one line of several."),
    (HEAD + f"define {'a' * 64} := b\nend\n", 3, "The name of a declaration has at most 63 bytes, and this one has 64."),
    (HEAD + "define.a := b\nend\n", 3, DEFINE),
    (HEAD + "uses a.b\nend\n", 3, "The form of the line is: uses M"),
    (HEAD + "defin a := b\nend\n", 3, "Did you mean define?"),
    (HEAD + "foo\nend\n", 3, "No line begins so. After the first two lines a module has lines uses, parameter, assume and define, and then end."),
    (HEAD + "  % a comment\nend\n", 3, "A comment begins with % at the start of the line, without blanks before it."),
]


class Forms(unittest.TestCase):
    def test_each_line_has_its_sentence(self):
        for text, line, wanted in LINES:
            with self.subTest(text=text):
                self.assertEqual(form_note(Source("m.yar", text.encode()), line).text, wanted)

    def test_a_line_that_is_not_utf8(self):
        source = Source("m.yar", HEAD.encode() + b"% \xff\nend\n")
        self.assertEqual(form_note(source, 3).text, "This line is not UTF-8.")

    def test_the_note_is_about_the_line_without_its_blanks(self):
        source = Source("m.yar", (HEAD + "  foo bar \nend\n").encode())
        note = form_note(source, 3)
        self.assertEqual((note.start, note.end), (2, 9))


if __name__ == "__main__":
    unittest.main()
