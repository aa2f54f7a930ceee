import os
import sys
import unittest

from yarrow_prompt.engine import Ended, Engine, Round
from yarrow_prompt.session import Session

STAND_IN = os.path.join(os.path.dirname(os.path.abspath(__file__)), "stand_in.py")


def engine_of(system="LC"):
    return Engine([sys.executable, "-B", STAND_IN, system])


class Rounds(unittest.TestCase):
    def setUp(self):
        self.engine = engine_of()
        self.addCleanup(self.engine.stop)

    def test_replies_and_events(self):
        self.assertEqual(self.engine.round([]), Round([], 0))
        self.assertEqual(self.engine.round(["assume A : *", "commit", "draft"]), Round(["assumed A : *", "committed 0 1", "draft 0"], 1))

    def test_an_end_has_its_status(self):
        for line, status in (("reduce end 7", 7), ("reduce end -9", 137)):
            with self.assertRaises(Ended) as caught:
                self.engine.round(["reduce a", line])
            self.assertEqual(caught.exception.status, status)
            self.assertEqual(self.engine.round(["reduce a"]).replies, ["a"])

    def test_an_end_at_the_start(self):
        for words, status, printed in (([sys.executable, STAND_IN, "none"], 6, ["no file none"]), (["/nowhere/yarrow"], 125, None)):
            with self.assertRaises(Ended) as caught:
                Engine(words).round([])
            self.assertEqual(caught.exception.status, status)
            self.assertIn(caught.exception.printed, [printed] if printed else [caught.exception.printed])

    def test_a_great_line_goes_through_both_pipes(self):
        self.assertEqual(self.engine.round(["reduce " + "a" * 1_000_000]).replies, ["a" * 1_000_000])


class Sessions(unittest.TestCase):
    def setUp(self):
        self.session = Session(engine_of())
        self.addCleanup(self.session.engine.stop)

    def take(self, *lines):
        for line in lines:
            self.session.take(line, self.session.ask([line]))

    def test_names_that_stand(self):
        self.take("assume A : *", "define b : A := c", "commit", "assume D : *")
        self.assertEqual(self.session.names, {"A": "*", "b": "A", "D": "*"})
        self.take("discard")
        self.assertEqual(self.session.names, {"A": "*", "b": "A"})

    def test_a_new_start_leads_to_the_same_state(self):
        self.take("assume A : *", "commit", "assume B : *")
        draft = self.session.ask(["draft", "look"])
        self.assertEqual(self.session.again(), 0)
        self.assertEqual(self.session.ask(["draft", "look"]), draft)

    def test_input_that_is_used_up_is_hidden_once(self):
        self.take("assume A : *")
        first = self.session.engine.child
        with self.assertRaises(Ended):
            self.session.ask(["reduce end 8"])
        self.assertIsNot(self.session.engine.child, first)
        self.assertEqual(self.session.ask(["show A"]).replies, ["refused UnknownName 5 x"])

    def test_work_is_what_declares(self):
        self.take("budget 5", "look")
        self.assertFalse(self.session.has_work)
        self.take("assume A : *")
        self.assertTrue(self.session.has_work)
        self.session.saved = True
        self.assertFalse(self.session.has_work)


if __name__ == "__main__":
    unittest.main()
