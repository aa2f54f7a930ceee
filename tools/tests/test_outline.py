import unittest

from yarrow_prompt.outline import Outline, gives_a_sort, under

# The types of the parts that are asked for, as the program gives them.
TYPES = {
    r"infer \A:*. \B:*. \p:and A B. ((second A B p))": "@A:*. @B:*. and A B -> B",
    r"infer \A:*. \B:*. \p:and A B. ((first A B p))": "@A:*. @B:*. and A B -> A",
    r"infer \A:*. \B:*. \p:and A B. (both B A (second A B p) (first A B p))": "@A:*. @B:*. and A B -> and B A",
    r"infer \x:A. ((eq A x))": "@x:A. A -> *",
    r"infer \x:A. (f (eq A x) y)": r"@x:A. (\z:A. eq A z x) y",
}


def lines(body, short=str):
    outline = Outline(body)
    outline.ask(lambda asked: [TYPES.get(it) for it in asked])
    return ["".join(it) for it in outline.lines(short)]


class Lines(unittest.TestCase):
    def test_a_proof(self):
        self.assertEqual(
            lines(r"\A:*. \B:*. \p:and A B. both B A (second A B p) (first A B p)"),
            [
                "  1  let A : *",
                "  2  | let B : *",
                "  3  | | let p : and A B",
                "  4  | | | B   by second A B p",
                "  5  | | | A   by first A B p",
                "  6  | | | and B A   by both B A (4) (5)",
            ],
        )

    def test_an_argument_that_is_a_type_is_written_where_it_is_used(self):
        self.assertEqual(lines(r"\x:A. f (eq A x) y"), ["  1  let x : A", "  2  | eq A y x   by f (eq A x) y"])

    def test_a_type_that_can_t_be_asked_for(self):
        self.assertEqual(lines("f (g a)"), ["  1  ?   by g a", "  2  ?   by f (1)"])

    def test_names_may_be_short(self):
        self.assertEqual(lines(r"\x:m.A. x", lambda text: text.replace("m.", "")), ["  1  let x : A", "  2  | ?   by x"])

    def test_what_is_no_term_has_no_lines(self):
        self.assertEqual(lines(")"), [])


class Types(unittest.TestCase):
    def test_under_binders(self):
        self.assertEqual([under("@x:A. B x -> C", 2), under("A", 1), under(r"A -> (\x:A. B x) y", 1)], ["C", "?", "B y"])

    def test_what_gives_a_sort(self):
        self.assertEqual([gives_a_sort(it) for it in ("*", "A -> *", "A", "?", "@x:*. x")], [True, True, False, False, False])


if __name__ == "__main__":
    unittest.main()
