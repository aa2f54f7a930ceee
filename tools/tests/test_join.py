import unittest

from yarrow_tools.join import joined
from yarrow_tools.source import Source


class Join(unittest.TestCase):
    def made(self, text, **how):
        return joined(text.encode(), **how).decode()

    def test_a_line_that_begins_with_a_blank_goes_on(self):
        self.assertEqual(self.made("define a : T :=\n  f\n  b\nend\n"), "define a : T :=   f   b\n\n\nend\n")

    def test_a_comment_after_a_declaration(self):
        self.assertEqual(self.made("assume a : T % why\nend % here\n"), "assume a : T      \nend\n")

    def test_lines_between_belong_to_the_declaration(self):
        self.assertEqual(self.made("define a :=\n% why\n\n  f\n\nend"), "define a :=          f\n\n\n\n\nend")

    def test_other_lines_stay(self):
        text = "yarrow-module 1\nmodule m\n\n% a comment\ndefine a := b\nend\n"
        self.assertEqual(self.made(text), text)
        self.assertEqual(self.made("   \nend\n  \n"), "\nend\n\n")

    def test_signs_keep_their_places(self):
        self.assertEqual(self.made("assume a : ∀x:A. A → □"), "assume a : @  x:A. A ->  #  ")
        self.assertEqual(self.made("define a := λx:A. x"), "define a := λx:A. x")
        self.assertEqual(self.made("define a := λx:A. Πy:A. xλ", greek=True), "define a := \\ x:A. @ y:A. xλ")

    def test_carriage_returns_and_wrong_bytes(self):
        self.assertEqual(joined(b"define a :=\r\n  f\r\nend\r\n"), b"define a :=    f \n\nend\n")
        self.assertEqual(joined(b"define a := \xff % x\n"), b"define a := \xff    \n")

    def test_every_byte_keeps_its_place(self):
        text = "define a :=  % é\n  λ → x\n% c\n   y\n"
        made = joined(text.encode(), greek=True)
        self.assertEqual(made.index(b"y"), text.encode().index(b"   y") + 3)

    def test_places_of_a_joined_line_are_those_of_the_file(self):
        source = Source("m.src", "yarrow-module 1\nmodule m\ndefine a : T :=\n  é\n  b\nend\n".encode())
        start = source.line(3).index("b")
        self.assertEqual(str(source.position(3, start, start + 1)), "5:3-3")
        self.assertEqual(str(source.position(3, 7, 8)), "3:8-8")
        self.assertEqual(str(source.position(6, 0, 3)), "6:1-3")

    def test_carriage_returns_count_as_bytes(self):
        source = Source("m.src", b"define a :=\r\n  b\r\n")
        start = source.line(1).index("b")
        self.assertEqual(str(source.position(1, start, start + 1)), "2:3-3")


if __name__ == "__main__":
    unittest.main()
