import unittest

from yarrow_tools.beta import without_redexes


class Beta(unittest.TestCase):
    def test_steps(self):
        for text, wanted in (
            ("(\\z:A. eq A x z) y", "eq A x y"),
            ("(\\x:A. \\y:A. x) y", "\\y1:A. y"),
            ("@y:A. (\\x:A. @y:A. P x y) y", "@y:A. @y1:A. P y y1"),
            ("(\\f:A -> A. f (f a)) (\\x:A. x)", "a"),
            ("let x := (\\y:A. y) a : A in x", "let x := a : A in x"),
            ("A -> (\\X:*. X) B", "A -> B"),
            ("f (A -> B) (@x:A. B x)", "f (A -> B) (@x:A. B x)"),
            ("(\\x:A. x x) b c", "b b c"),
        ):
            self.assertEqual(without_redexes(text), wanted)

    def test_no_term_and_no_end(self):
        self.assertIsNone(without_redexes("\\x"))
        self.assertIsNone(without_redexes("(\\x:A. x x) (\\x:A. x x)"))


if __name__ == "__main__":
    unittest.main()
