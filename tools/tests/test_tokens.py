import unittest

from yarrow_tools.tokens import character_place, tokens


def kinds(text):
    return [(it.kind, it.text) for it in tokens(text)]


class Tokens(unittest.TestCase):
    def test_a_dot_joins_identifiers_alone(self):
        self.assertEqual(kinds("A.x"), [("name", "A.x")])
        self.assertEqual(kinds("A. x"), [("name", "A"), (".", "."), ("name", "x")])
        self.assertEqual(kinds("'p.x"), [("sort", "'p"), (".", "."), ("name", "x")])
        self.assertEqual(kinds("1.x"), [("number", "1"), (".", "."), ("name", "x")])
        self.assertEqual(kinds("a.let"), [("name", "a"), (".", "."), ("let", "let")])
        self.assertEqual(kinds("a.letter"), [("name", "a.letter")])
        self.assertEqual(kinds("a.1"), [("name", "a"), (".", "."), ("number", "1")])

    def test_signs_and_sorts(self):
        self.assertEqual([it.text for it in tokens("\\x:*.x->y:=(#);'t")], ["\\", "x", ":", "*", ".", "x", "->", "y", ":=", "(", "#", ")", ";", "'t"])

    def test_letters_are_those_of_unicode(self):
        self.assertEqual(kinds("λx é1"), [("name", "λx"), ("name", "é1")])

    def test_what_begins_no_token_is_bad_and_the_rest_is_read(self):
        self.assertEqual(kinds("a & b"), [("name", "a"), ("bad", "&"), ("name", "b")])
        self.assertEqual(kinds("'let"), [("bad", "'let")])
        self.assertEqual(kinds("x²"), [("name", "x"), ("bad", "²")])

    def test_places_count_characters(self):
        self.assertEqual([(it.start, it.end) for it in tokens("é → b")], [(0, 1), (2, 3), (4, 5)])
        self.assertEqual(character_place("é → b", 7), 4)
        self.assertEqual(character_place("ab", 9), 2)


if __name__ == "__main__":
    unittest.main()
