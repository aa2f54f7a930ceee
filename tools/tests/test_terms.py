import unittest

from yarrow_tools.terms import parse, statement

# A line of 250 bytes, in which the wrong part is twelve steps deep.
LONG = (
    "define trans : @a:nat. @b:nat. @c:nat. le a b -> le b c -> le a c := \\a:nat. \\b:nat. \\c:nat. \\p:le a b. \\q:le b c. "
    "q (\\x:nat. \\y:nat. le a x -> le a y) (\\x:nat. \\h:le a x. h) (\\x:nat. \\y:nat. \\r:le a x -> le a y. \\s:le a x. successor_is_more a y s) p"
)


def part(line, which, path):
    found = statement(line).part(which).part(path)
    return line[found.start : found.end] if found else None


class Paths(unittest.TestCase):
    def test_each_form_has_its_parts(self):
        for text, path, wanted in (
            ("f a b", "0", "f a"),
            ("f a b", "0.1", "a"),
            ("\\x:A. b", "0", "A"),
            ("\\x:A. b", "1", "b"),
            ("@x:A. B x", "1.1", "x"),
            ("A -> B -> C", "1.0", "B"),
            ("let x := d : A in b", "0", "d"),
            ("let x := d : A in b", "1", "A"),
            ("let x := d : A in b", "2", "b"),
            ("f (g (h a))", "1.1.1", "a"),
            ("f (g (h a))", "1.1", "(h a)"),
            ("f a", "-", "f a"),
        ):
            found = parse(text).part(path)
            self.assertEqual(text[found.start : found.end], wanted, (text, path))

    def test_a_path_out_of_the_term_leads_nowhere(self):
        self.assertIsNone(parse("f a").part("1.0"))

    def test_twelve_steps_in_a_line_of_250_bytes(self):
        self.assertEqual(len(LONG), 250)
        self.assertEqual(part(LONG, "term", "1.1.1.1.1.0.1.1.1.1.1.1"), "s")
        self.assertEqual(part(LONG, "term", "1.1.1.1.1.0.1.1.1.1.1.0"), "successor_is_more a y")
        self.assertEqual(part(LONG, "term", "1.1.1.1.1.1"), "p")
        self.assertEqual(part(LONG, "type", "1.1.1.1.0"), "le b c")

    def test_the_deepest_term_has_places(self):
        text = "f (" * 1998 + "a" + ")" * 1998
        self.assertEqual(parse(text).part(".".join(["1"] * 1998)).text, "a")
        self.assertEqual(parse("(" * 2000 + "a" + ")" * 2000).start, 0)


class Statements(unittest.TestCase):
    def test_parts_of_a_line(self):
        line = "define id : @A:*. A := \\A:*. x"
        found = statement(line)
        self.assertEqual((found.word, found.name.text), ("define", "id"))
        self.assertEqual(line[found.type.start : found.type.end], "@A:*. A")
        self.assertEqual(line[found.term.start : found.term.end], "\\A:*. x")
        self.assertIsNone(statement("define id := x").type)
        self.assertEqual(statement("assume A : *").type.text, "*")

    def test_what_can_be_read_of_a_wrong_line(self):
        self.assertEqual(statement("define x : A -> B := f &").type.end, 17)
        self.assertIsNone(statement("define x : A -> := f").type)
        self.assertIsNone(statement("define").name)
        self.assertIsNone(statement("end"))
        self.assertIsNone(parse("f a )"))


if __name__ == "__main__":
    unittest.main()
