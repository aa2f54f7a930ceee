import io
import os
import tempfile
import unittest

from test_engine import engine_of
from yarrow_prompt import own
from yarrow_prompt.completion import ended, offers
from yarrow_prompt.drawing import Screen
from yarrow_prompt.engine import Ended
from yarrow_prompt.own import Leave
from yarrow_prompt.prompt import Prompt
from yarrow_prompt.script import play
from yarrow_prompt.session import Session
from yarrow_prompt.table import ROWS, TABLE, Flag
from yarrow_tools.screen import columns
from yarrow_tools.specs import spec_path, tomllib


class Work(unittest.TestCase):
    """A prompt over the stand-in, in a folder of its own."""

    def setUp(self):
        folder = tempfile.TemporaryDirectory()
        self.addCleanup(folder.cleanup)
        self.addCleanup(os.chdir, os.getcwd())
        os.chdir(folder.name)
        self.prompt = self.prompt_of(person=True)

    def prompt_of(self, person, system="LC"):
        prompt = Prompt(["LC"], spec_path("LC"), Session(engine_of(system)), Screen(io.StringIO(), {}), person)
        self.addCleanup(prompt.session.engine.stop)
        return prompt

    def shown(self, *lines):
        """What is shown of these lines, the last of which may not be taken."""
        self.prompt.screen.out = io.StringIO()
        for line in lines[:-1]:
            self.assertTrue(self.prompt.take(line), line)
        self.is_taken = self.prompt.take(lines[-1])
        return self.prompt.screen.out.getvalue().splitlines()

    def kept(self):
        return self.prompt.session.kept

    def written(self, name, text):
        with open(name, "w") as file:
            file.write(text)

    def read(self, name):
        with open(name) as file:
            return file.read()


class Lines(Work):
    def test_replies_in_words(self):
        self.assertEqual(self.shown("assume A : *", "commit", "commit", "discard"), ["assumed A : *", "committed 1 declaration", "committed 0 declarations", "discarded 0 declarations"])
        self.assertEqual(self.shown("equal A ; B"), ["no: their weak head normal forms differ first at the part 1.0"])
        self.assertEqual(self.shown("infer committed", "infer assumed B"), ["committed : T", "assumed B : T"])
        self.assertEqual(list(self.prompt.session.names), ["A"])

    def test_a_refusal_is_shown_with_its_place(self):
        wanted = ["  infer a b", "        ^", "  a is no binder and no declaration."]
        self.assertEqual(self.shown("infer a b ! UnknownName 6 a")[:3], ["  infer a b ! UnknownName 6 a", "        ^", wanted[2]])
        self.assertFalse(self.is_taken)
        self.assertEqual(self.kept(), [])

    def test_only_lines_that_change_something_are_kept(self):
        self.shown("assume A : *", "infer A", "show A", "names", "draft", "look", "budget 5", "% nothing", "help", "discard")
        self.assertEqual(self.kept(), ["assume A : *", "look", "budget 5", "discard"])

    def test_a_line_that_can_t_be_sent(self):
        self.assertEqual(self.shown("infer " + "a" * 70_000), ["  The line has 70,006 bytes, and at most 65,533 are read."])
        self.assertFalse(self.is_taken)

    def test_the_program_s_own_lines(self):
        self.assertEqual(self.shown("set raw on", "assume A : *", "set raw off", "commit"), ["  | assumed A : *", "assumed A : *", "committed 1 declaration"])


class Ends(Work):
    def test_the_program_is_started_anew(self):
        self.shown("assume A : *", "commit", "assume B : *")
        self.assertEqual(" ".join(self.shown("reduce end 7")), "the program ended, no memory was left (status 7): started anew, 3 lines given again. The last line was not taken.")
        self.assertFalse(self.is_taken)
        self.assertEqual(self.shown("draft"), ["draft 1", "B : *"])
        self.assertIn("signal 9", self.shown("reduce end -9")[0])

    def test_lines_that_are_refused_then_are_counted(self):
        self.shown("assume A : *")
        self.prompt.session.kept.append("nonsense")
        self.assertIn("2 lines given again, 1 refused: the state is another.", " ".join(self.shown("reduce end 3")))

    def test_where_it_does_not_start_again_the_lines_are_shown(self):
        self.prompt = self.prompt_of(True, "once " + os.path.abspath("started"))
        self.shown("assume A : *")
        with self.assertRaises(Ended) as caught:
            self.shown("reduce end 7")
        self.assertEqual(caught.exception.status, 9)
        self.assertEqual(self.prompt.screen.out.getvalue().splitlines()[-1], "  assume A : *")

    def test_in_a_script_it_is_the_end(self):
        prompt = self.prompt_of(False)
        with self.assertRaises(Ended):
            play(prompt, ["assume A : *", "reduce end 7"])
        self.assertEqual(prompt.screen.out.getvalue().splitlines()[-1], "the program ended, no memory was left (status 7); line 2 was not taken")


class Scripts(Work):
    def played(self, *lines):
        prompt = self.prompt_of(False)
        return play(prompt, lines), prompt.screen.out.getvalue().splitlines()

    def test_a_script_is_shown_with_what_comes_of_it(self):
        self.assertEqual(self.played("assume A : *\n", "infer A\n", "   A\n"), (0, ["LC> assume A : *", "assumed A : *", "LC> infer A A", "A A : T"]))

    def test_it_stops_at_the_first_refusal(self):
        status, shown = self.played("assume A : *", "", "foo", "commit")
        self.assertEqual(status, 1)
        self.assertEqual(shown[2:5] + shown[-1:], ["LC> foo", "refused Expected 0 Command", "  foo", "line 3 was refused"])
        self.assertEqual(self.played("help foo", "commit")[0], 1)

    def test_it_ends_with_quit(self):
        self.assertEqual(self.played("quit", "foo")[0], 0)


class Own(Work):
    def test_each_has_its_row(self):
        self.assertEqual(set(own.COMMANDS), {it.word for it in ROWS if Flag.SENT not in it.flags})

    def test_help_fits_the_screen(self):
        for width in (30, 72):
            self.prompt.screen.width = lambda: width
            shown = self.shown("help")
            self.assertLessEqual(max(map(columns, shown)), width)
            for command in ROWS:
                self.assertTrue(any(it.strip().startswith(command.word) for it in shown), command.word)
        self.assertEqual(self.shown("help commit"), ["  commit                     Makes the draft part of the context.", "                             Nothing takes it out again."])
        self.assertEqual(self.shown("help foo"), ["  There is no command foo."])

    def test_names_by_a_word_of_them(self):
        self.shown("assume A : *", "assume f : A -> A", "define f2 : A := a")
        self.assertEqual(self.shown("names"), ["A : *", "f : A -> A", "f2 : A"])
        self.assertEqual(self.shown("names f"), ["f : A -> A"])
        self.assertEqual(self.shown("names B"), ["  No name or type has B in it."])

    @unittest.skipIf(tomllib is None, "the files of systems are read by Python 3.11 or later")
    def test_the_system(self):
        self.assertEqual(self.shown("system"), ["sorts   * #", "axioms  * : #", "rules   (*, *) (#, *) (*, #) (#, #)"])

    def test_lines_are_saved_and_run(self):
        shown = self.shown("assume A : *", "infer A", "commit", "script", "save a.prove")
        self.assertEqual(shown[-3:], ["  assume A : *", "  commit", "saved 2 lines to a.prove"])
        self.assertEqual(self.read("a.prove"), "% yarrow prove LC\nassume A : *\ncommit\n")
        self.assertFalse(self.prompt.session.has_work)
        self.prompt = self.prompt_of(True)
        self.assertEqual(self.shown("run a.prove"), ["LC> assume A : *", "assumed A : *", "LC> commit", "committed 1 declaration"])

    def test_only_saved_lines_are_written_over(self):
        self.written("mine.yar", "yarrow-module 1\n")
        self.shown("save a.prove", "assume A : *", "save a.prove")
        self.assertIn("assume", self.read("a.prove"))
        self.assertEqual(self.shown("save mine.yar"), ["  mine.yar is there already, and has other things than saved lines."])
        self.assertEqual(self.shown("save no/where"), ["  no/where: No such file or directory"])
        self.assertEqual(self.shown("save"), ["  The form of the line is: save FILE"])

    def test_a_file_is_run_up_to_its_first_refusal(self):
        self.written("b.prove", "assume A : *\n\nfoo\nassume B : *\n")
        self.assertEqual(self.shown("run b.prove")[-1], "  Line 3 of b.prove was not taken; those before it were.")
        self.assertFalse(self.is_taken)
        self.assertEqual(self.kept(), ["assume A : *"])
        self.written("c.prove", "run c.prove\n")
        self.assertEqual(self.shown("run c.prove")[:2], ["LC> run c.prove", "  c.prove is being run already."])
        self.assertEqual(self.shown("run none"), ["  none: No such file or directory"])

    def test_a_module_is_exported(self):
        shown = self.shown("assume A : *", "define id : A -> A := \\x:A. x", "commit", "assume a : A", "export mine")
        self.assertEqual(shown[-1], "mine.yar has 3 declarations. This checks it: bin/yarrow batch LC mine")
        self.assertEqual(self.read("mine.yar"), "yarrow-module 1\nmodule mine\nassume A : *\ndefine id : A -> A := \\x:A. x\nassume a : A\nend\n")
        self.assertEqual(self.shown("export mine.yar"), ["  mine.yar is there already. Take another name."])
        self.assertEqual(self.shown("export a.b"), ["  a.b can't be the name of a module: it has to be letters, digits and _."])
        self.assertEqual(self.shown("assume " + "a" * 64 + " : *", "export m")[-1], "  name of a declaration in a module: it has more than 63 bytes.")
        self.assertFalse(os.path.exists("m.yar"))

    def test_a_transcript(self):
        self.shown("transcript t", "assume A : *", "infer foo ! Spent")
        self.prompt.take("transcript")
        self.shown("commit")
        self.assertEqual(self.read("t").splitlines()[:2], ["assumed A : *", "  The budget of the line is used up. More is given by budget N, up to 10000000."])
        self.assertNotIn("committed", self.read("t"))

    def test_settings_and_the_way_out(self):
        self.assertEqual(self.shown("set"), ["  The form of the line is: set unicode on|off, or set raw on|off"])
        self.assertEqual(self.shown("set unicode on"), ["  The terminal is not set to UTF-8."])
        with self.assertRaises(Leave):
            self.prompt.take("quit")


class Completed(Work):
    def test_words_by_the_table(self):
        self.shown("assume A : *", "assume append : A")
        self.prompt.session.names["list.apply"] = "A"
        for before, begun, wanted in [
            ("", "dis", ["discard"]),
            ("", "s", ["save", "script", "set", "show", "simplify", "system"]),
            ("infer f (", "ap", ["append", "list.apply"]),
            ("infer ", "A", ["A"]),
            ("help ", "tr", ["transcript"]),
            ("set ", "", ["raw", "unicode"]),
            ("set raw ", "o", ["off", "on"]),
            ("commit ", "", []),
            ("foo ", "", []),
        ]:
            self.assertEqual(offers(self.prompt, before, begun), wanted)

    def test_files(self):
        self.written("one.prove", "")
        os.mkdir("on")
        self.assertEqual(offers(self.prompt, "run ", "o"), ["on/", "one.prove"])

    def test_the_only_offer_ends_its_word(self):
        self.assertEqual([ended(["a"]), ended(["a/"]), ended(["a", "b"]), ended([])], [["a "], ["a/"], ["a", "b"], []])
        self.assertIn("quit", TABLE)


if __name__ == "__main__":
    unittest.main()
