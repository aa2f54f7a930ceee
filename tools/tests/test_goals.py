import io
import unittest

from yarrow_prompt.drawing import Screen
from yarrow_prompt.goals import Goal, Hypothesis, Proof, count_of, goal_of, goals_of, show_all, show_proof

CASES = [
    ("goal |- A", (), "A"),
    ("goal A : * |- @x:A. A", (("A", "*"),), "@x:A. A"),
    ("goal A : *, f : A -> A |- A -> A", (("A", "*"), ("f", "A -> A")), "A -> A"),
    ("goal x : let y := a : A in A |- let y := a : A in A", (("x", "let y := a : A in A"),), "let y := a : A in A"),
]


class Read(unittest.TestCase):
    def test_a_goal_has_hypotheses_and_a_statement(self):
        for reply, hypotheses, statement in CASES:
            self.assertEqual(goal_of(reply), Goal(tuple(Hypothesis(*it) for it in hypotheses), statement))

    def test_the_goals_of_a_reply(self):
        self.assertEqual([count_of("goals 0"), count_of("goals 12"), count_of("goal |- A")], [0, 12, None])
        self.assertEqual([it.statement for it in goals_of(["goals 2", "goal |- A", "goal |- B"])], ["A", "B"])

    def test_a_goal_as_a_product(self):
        self.assertEqual(goal_of("goal A : *, x : A |- A").abstracted(), "@A:*. @x:A. A")


class Shown(unittest.TestCase):
    def shown(self, show, *statements, width=30):
        screen = Screen(io.StringIO(), {})
        screen.width = lambda: width
        show(screen, Proof("t", tuple(Goal((), it) for it in statements)))
        return screen.out.getvalue().splitlines()

    def test_the_first_goal_and_briefly_the_others(self):
        self.assertEqual(self.shown(show_proof, "A"), ["goal", "  " + "-" * 28, "  A"])
        self.assertEqual(self.shown(show_proof, "A", "B")[0::3], ["goal 1 of 2", "then 2: B"])
        self.assertEqual(self.shown(show_proof, *"ABCDEF")[3:], ["then 2: B", "then 3: C", "then 4: D", "and 2 more"])
        self.assertEqual(self.shown(show_proof), ["no goal is left: qed ends the", "proof"])

    def test_another_goal_is_cut_to_its_line(self):
        self.assertEqual(self.shown(show_proof, "A", "f " + "a " * 40 + "b")[3], "then 2: f a a a a a a a a a ..")

    def test_all_goals(self):
        self.assertEqual(self.shown(show_all, "A", "B")[0::3], ["goal 1 of 2", "goal 2 of 2"])
        self.assertEqual(self.shown(show_all, "A")[0], "goal")


if __name__ == "__main__":
    unittest.main()
