import io
import os
import sys

from test_prompt import Work
from yarrow_prompt.completion import offers
from yarrow_prompt.drawing import Screen
from yarrow_prompt.engine import Engine
from yarrow_prompt.library import Library
from yarrow_prompt.prompt import Prompt
from yarrow_prompt.session import Session
from yarrow_tools.specs import ROOT, spec_path

TESTS = os.path.join(ROOT, "tests")
START = ["assume A : *", "assume P : A -> *", r"theorem t : @x:A. (\z:A. P z) x -> P x"]
SWAP = ["load logic", "open logic", "theorem swap : @A:*. @B:*. And A B -> And B A", "intros A B p", "apply pair"]


class Recorded(Work):
    """A prompt over recorded rounds."""

    def start(self, *files):
        words = [sys.executable, "-B", os.path.join(TESTS, "stand-in"), "replay", "LC.toml", *files]
        session = Session(Engine(words), Library(files, os.path.join(TESTS, "rounds")))
        self.prompt = Prompt(["LC", *files], spec_path("LC"), session, Screen(io.StringIO(), {}), True)
        self.addCleanup(session.engine.stop)

    def at(self, *lines):
        """Takes these lines."""
        self.shown(*lines)
        self.assertTrue(self.is_taken)


class Steps(Recorded):
    def setUp(self):
        super().setUp()
        self.start()
        self.at(*START)

    def test_intros_take_the_names_of_the_goal(self):
        self.at("intros")
        self.assertEqual(self.kept()[-2:], ["intro x", "intro h"])
        self.assertEqual(self.prompt.text, "t> ")

    def test_intros_with_names_up_to_one_that_is_refused(self):
        self.assertEqual(self.shown("intros x h z"), ["  refused Unrecorded"])
        self.assertEqual(self.kept()[-2:], ["intro x", "intro h"])

    def test_intros_of_a_goal_that_shows_no_product(self):
        self.at("intros x h", "cut h1 : P x", "exact h")
        self.assertEqual(self.shown("intros")[-1:], ["  refused Unrecorded"])
        self.assertEqual(self.shown("intro z"), ["  The goal is no product, so nothing can be taken from it."])

    def test_assumption_tries_from_the_last_hypothesis_on(self):
        self.at("intros x h")
        self.assertEqual(self.shown("assumption"), ["exact h", "no goal is left: qed ends the proof"])
        self.at("undo", "cut h1 : P x")
        self.assertEqual(self.shown("assumption x"), ["  The form of the line is: assumption"])

    def test_beta_of_a_hypothesis_is_another_one(self):
        self.at("intros x h", "beta h")
        self.assertEqual(self.kept()[-2:], ["cut h1 : P x", "exact h"])
        self.assertEqual(self.shown("beta h1"), ["  There is no beta step to do."])
        self.assertEqual(self.shown("beta foo"), ["  foo is no hypothesis."])
        self.assertEqual(self.shown("beta"), ["  There is no beta step to do."])

    def test_a_goal_that_can_t_be_left_leaves_all_as_it_was(self):
        self.at("intros x h", "budget 3")
        kept, goals = self.kept(), self.shown("goals")
        self.assertEqual(self.shown("admit"), ["  The goal can't be left: refused Spent"])
        self.assertEqual((self.kept(), self.shown("goals")), (kept, goals))

    def test_commands_without_a_goal(self):
        self.at("intros x h", "assumption")
        for line in ("intros", "assumption", "beta", "simplify", "admit"):
            self.assertEqual(self.shown(line), ["  No goal is left: qed ends the proof."])
        self.at("qed")
        for line in ("intros", "assumption", "beta", "simplify", "admit"):
            self.assertEqual(self.shown(line), ["  No proof is open. One begins with: theorem X : TERM"])

    def test_back_takes_lines_back(self):
        self.at("intros x h")
        self.assertEqual(self.shown("back 3")[:3], ["taken back: intro h", "taken back: intro x", f"taken back: {START[2]}"])
        self.assertEqual((self.kept(), self.prompt.text), (START[:2], "LC> "))
        self.assertEqual(self.shown("back x"), ["  The form of the line is: back [N]"])
        self.assertEqual(self.shown("back 9")[-1:], ["taken back: assume A : *"])
        self.assertEqual(self.shown("back"), ["  No line yet changed anything."])


class Modules(Recorded):
    def setUp(self):
        super().setUp()
        self.start("logic")
        self.at(*SWAP)

    def test_the_lines_that_are_kept_have_long_names(self):
        self.assertEqual(self.kept()[1], "theorem swap : @A:*. @B:*. logic.And A B -> logic.And B A")

    def test_all_goals_are_known(self):
        self.assertEqual((self.prompt.text, [it.statement for it in self.prompt.session.proof.goals]), ("swap 2> ", ["B", "A"]))

    def test_a_module_that_is_not_loaded_can_t_be_open(self):
        self.assertEqual(self.shown("open order"), ["  No module order is loaded."])
        self.assertEqual(self.prompt.naming.opened, ("logic",))

    def test_completion(self):
        for before, begun, wanted in (("load ", "l", ["logic"]), ("open ", "", ["logic"]), ("exact ", "p", ["logic.pair", "p"]), ("exact ", "sn", ["logic.snd"]), ("unfold ", "", [])):
            self.assertEqual(offers(self.prompt, before, begun), wanted)
        self.at("undo")
        self.assertEqual(offers(self.prompt, "unfold ", ""), ["logic.And"])

    def test_a_listing_needs_a_body(self):
        self.assertEqual(self.shown("show And")[:1], [r"And := \A:*. \B:*. @C:*. (A -> B -> C) -> C : * -> * -> *"])
        self.assertEqual(self.shown("listing nosuch"), ["  refused Unrecorded"])
