import unittest

from yarrow_prompt.library import Declared, Library
from yarrow_prompt.saving import lasting
from yarrow_prompt.session import replies_by_line
from yarrow_prompt.state import State


class Shelf(Library):
    """A library that needs no files."""

    def declared_in(self, module):
        return [Declared("a", False), Declared("b", True)]

    def certified_in(self, certificate):
        return [Declared("c", True)]


class Known(unittest.TestCase):
    def setUp(self):
        self.state = State()

    def learn(self, *exchanges):
        for line, *replies in exchanges:
            self.state.learn(line, replies, Shelf())

    def test_modules_and_certificates(self):
        self.learn(("load m", "committed 0 2"), ("instance m L T", "committed 2 4"), ("accept x", "committed 4 5"))
        self.assertEqual(list(self.state.names), ["m.a", "m.b", "L.a", "L.b", "c"])
        self.assertEqual((self.state.bodies, self.state.here), ({"m.b", "L.b", "c"}, []))

    def test_another_name_may_be_in_the_types_of_the_draft(self):
        self.learn(("assume A : *", "assumed A : *"), ("commit", "committed 0 1"), ("assume B : *", "assumed B : *"), ("define b : B := x", "defined b : B"), ("rename B C", "renamed C"))
        self.assertEqual(self.state.names, {"A": "*", "C": None, "b": None})
        self.assertEqual((self.state.drafted, self.state.here, self.state.bodies), (["C", "b"], ["A", "C", "b"], {"b"}))
        self.learn(("discard", "discarded 2"))
        self.assertEqual((self.state.names, self.state.here, self.state.bodies), ({"A": "*"}, ["A"], set()))

    def test_a_proof(self):
        self.learn(("theorem t: A", "goals 1", "goal x : A |- A"))
        self.assertEqual((self.state.proof.theorem, self.state.visible), ("t", ["x"]))
        self.learn(("exact x", "goals 0"))
        self.assertEqual((self.state.proof.goals, self.state.visible), ((), []))
        self.learn(("qed", "defined t : A"))
        self.assertEqual((self.state.proof, self.state.names, self.state.bodies), (None, {"t": "A"}, {"t"}))
        self.learn(("theorem u : A", "goals 1", "goal |- A"), ("abort", "aborted"))
        self.assertIsNone(self.state.proof)

    def test_a_line_that_asks_declares_nothing(self):
        self.learn(("infer defined x", "defined x : A"), ("show assumed", "assumed x : A"))
        self.assertEqual(self.state.names, {})


class Replies(unittest.TestCase):
    def test_each_line_has_its_own(self):
        replies = ["goals 1", "goal |- A", "refused Taken x 0", "goals 0", "defined t : A", "seen 3", "taken t 2", "seen 4", "committed 4 5"]
        wanted = [["goals 1", "goal |- A"], ["refused Taken x 0"], ["goals 0"], ["defined t : A"], ["seen 3", "taken t 2"], ["seen 4"], ["committed 4 5"]]
        self.assertEqual(replies_by_line(7, replies), wanted)
        self.assertEqual(replies_by_line(0, []), [])


class Saved(unittest.TestCase):
    def test_of_a_proof_that_was_given_up_only_budgets_stay(self):
        lines = ["assume A : *", "theorem t : A", "intro x", "budget 5", "abort", "theorem t : A", "exact x", "qed"]
        self.assertEqual(lasting(lines), ["assume A : *", "budget 5", "theorem t : A", "exact x", "qed"])


if __name__ == "__main__":
    unittest.main()
