import unittest

from yarrow_prompt.goals import Proof, goal_of
from yarrow_prompt.naming import Naming
from yarrow_prompt.state import State

NAMES = {"logic.And": None, "logic.fst": None, "order.And": None, "order.le": None, "mine": "A", "swap": "A", "logic.swap": None}


class Names(unittest.TestCase):
    def setUp(self):
        self.state = State(dict(NAMES), proof=Proof("t", (goal_of("goal le : A, p : A |- A"),)))
        self.naming = Naming(lambda: self.state)
        self.naming.opened = ("logic",)

    def test_what_is_sent_has_long_names(self):
        for short, long in [
            ("infer And A", "infer logic.And A"),
            ("infer f (And A) (fst A)", "infer f (logic.And A) (logic.fst A)"),
            ("show And", "show logic.And"),
            ("unfold And", "unfold logic.And"),
            ("equal And ; fst", "equal logic.And ; logic.fst"),
            ("theorem And : And -> fst", "theorem And : logic.And -> logic.fst"),
            ("instance order L And ; fst", "instance order L logic.And ; logic.fst"),
            ("define x : And := ((fst))", "define x : logic.And := ((logic.fst))"),
        ]:
            self.assertEqual(self.naming.long(short), long)

    def test_what_is_bound_or_declared_stays(self):
        for line in (r"infer \And:A. And", "infer let fst := a : A in fst", "infer swap", "exact le", "infer order.And", "commit", "infer nosuch", "infer (And", "intro And", "rename And fst"):
            self.assertEqual(self.naming.long(line), line)

    def test_what_is_shown_has_short_names_where_they_are_clear(self):
        for long, short in [
            ("logic.And A B", "And A B"),
            ("@x:logic.And A. logic.fst x", "@x:And A. fst x"),
            (r"\And:A. logic.And", r"\And:A. logic.And"),
            ("logic.swap p", "logic.swap p"),
            ("order.And logic.And", "order.And And"),
            ("'logic.And", "'logic.And"),
        ]:
            self.assertEqual(self.naming.short(long), short)

    def test_two_modules_with_one_name(self):
        self.naming.opened = ("logic", "order")
        self.assertEqual([self.naming.short("logic.And"), self.naming.long("infer And")], ["logic.And", "infer And"])
        self.assertEqual(self.naming.short("order.le A"), "order.le A")

    def test_nothing_is_open(self):
        self.naming.opened = ()
        self.assertEqual([self.naming.short("logic.And"), self.naming.long("infer And")], ["logic.And", "infer And"])
        self.assertEqual(self.naming.modules(), ["logic", "order"])


if __name__ == "__main__":
    unittest.main()
