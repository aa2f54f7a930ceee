import unittest

from yarrow_prompt.around import Around
from yarrow_prompt.goals import Proof, goal_of
from yarrow_prompt.library import Library
from yarrow_prompt.state import State
from yarrow_prompt.words import explained

ASSUME = "The form of the line is: assume X : TERM"
UNBUILT = "The command {} is not built yet: the program refuses it. A proof is a term here: define X : TERM := TERM."

# A line, its refusal, what of the line is pointed at, and the sentences.
CASES = [
    ("lok", "Expected 0 Command", "lok", "There is no command lok. Near to it: look."),
    ("Check a", "Expected 0 Command", "Check", "There is no command Check. Here it is infer: infer TERM"),
    ("foo", "Expected 0 Command", "foo", "There is no command foo. The command help lists them."),
    ("have a", "Expected 0 Command", "have", f"There is no command have. Here it is cut: cut X : TERM {UNBUILT.format('cut')}"),
    ("Infer a", "Expected 0 Command", "Infer", "There is no command Infer. Near to it: infer."),
    ("Lemma a : ∃", "BadChar 10", "∃", f"There is no command Lemma. Here it is theorem: theorem X : TERM {UNBUILT.format('theorem')} No token begins with '∃'."),
    ("theorem a : A", "NotBuilt", "theorem", UNBUILT.format("theorem")),
    ("load a", "NotBuilt", "load", "The command load is not built yet: the program refuses it. A module is checked by: bin/yarrow batch SPEC MODULE"),
    ("assume", "Expected 6 Plain", "", f"The line ends, and here a name without dots must come. {ASSUME}"),
    ("assume a b", "Expected 9 Colon", "b", "Here a ':' must come. A binder has one name and its type, as in \\x:A. \\y:A. b."),
    ("assume a := b", "Expected 9 Colon", ":=", f"Here a ':' must come. {ASSUME}"),
    ("infer", "Expected 5 Term", "", "The line ends, and here a term must begin. The form of the line is: infer TERM"),
    ("infer f (", "Expected 9 Term", "", "The line ends, and here a term must begin."),
    ("show", "Expected 4 Name", "", "The line ends, and here a name must come. The form of the line is: show NAME"),
    ("equal a", "Expected 7 Semicolon", "", "The line ends, and here a ';' must come. The form of the line is: equal TERM ; TERM"),
    ("budget x", "Expected 7 Number", "x", "Here a number must come. The form of the line is: budget N"),
    ("budget 010", "Expected 7 Number", "010", "Here a number must come. The form of the line is: budget N"),
    ("commit now", "Expected 7 End", "now", "Here the line must end. The form of the line is: commit"),
    ("infer \\x:A.x", "Expected 12 Dot", "A.x", "A.x is read as one name: put a blank after the dot, as in A. x"),
    ("infer a.", "Expected 7 End", ".", "No dot ends a line."),
    ("infer é'", "BadChar 8", "'", "No token begins with '''. A name has letters, digits and _; a ' begins a sort."),
    ("infer tehorem", "UnknownName 6 tehorem", "tehorem", "tehorem is no binder and no declaration. Near to it: theorem1."),
    ("infer Prop", "UnknownName 6 Prop", "Prop", "Prop is no sort here: the sort of types is *. The command system shows all sorts."),
    ("infer 'A", "UnknownSort 6 'A", "'A", "The system has no sort 'A. The command system shows all sorts."),
    ("infer (a)", "TooDeep 6", "(", "2,000 parentheses are open here already."),
    ("infer (a)", "TooDeep 9", "", "The term is nested deeper than 2,000."),
    ("assume a : b", "Taken a 0", "a", "a is declared already. Take another name."),
    ("commit", "Clash a 0", None, "a was committed by another session. Declare it under another name."),
    ("commit", "NothingToCommit", None, "The draft is empty."),
    ("infer a", "Spent", None, "The budget of the line is used up. More is given by budget N, up to 10000000."),
    ("infer a", "Surprise 1", None, "refused Surprise 1"),
    ("infer refused BadChar a", "BadChar a : *", None, "refused BadChar a : *"),
    ("infer f (g a)", "term 1.0 NotProduct A", "g", "This is applied to an argument, and is no function: it has the type A."),
    ("define a : f b := c", "type 0 NotASort A", "f", "This is used as a type, and is none: A is no sort."),
    ("define a : A := c", "term - NotConvertible - B ; A", "c", "This has the type B, and should have the type A."),
    ("infer a", "term 0.1 NoAxiom #", "a", "The sort # has no type in this system."),
]

GOAL = goal_of("goal A : *, p : logic.And A A |- (A -> A) -> logic.And A A")
STATE = State({"theorem1": "A", "A": "*", "logic.And": None}, proof=Proof("t", (GOAL,)))
KNOWN = Around(lambda _: None, State({"theorem1": "A", "A": "*"}), Library(["order"]))
# The same in a proof, where the program says the types of terms.
PROVING = Around({"infer snd": "snd : @A:*. @B:*. And A B -> B", "infer p": "p : And A A"}.get, STATE)

# Lines in a proof, with their refusals, the text that is pointed at with the stretch of it, and the sentences.
STEPS = [
    ("intro A", "Taken A 3", "intro A", "A", "A is declared already. Take another name."),
    ("intro x", "NotProduct A", None, None, "The goal is no product, and computed it is A, so nothing can be taken from it."),
    ("intro h", "goal 0 NoRule # *", GOAL.statement, "(A -> A)", "In the goal:"),
    ("exact p", "term - NotConvertible - logic.And A A ; A", "exact p", "p", "This has the type logic.And A A, and should have the type A."),
    ("exact q", "UnknownName 6 q", "exact q", "q", "q is no binder, no hypothesis and no declaration."),
    ("apply snd", "Undetermined 1", "apply snd", "snd", "Its type: @A:*. @B:*. And A B -> B The goal: (A -> A) -> logic.And A A The goal does not say what argument 1 (A) is: write it after snd."),
    ("apply p", "NoMatch 0", "apply p", "p", "Its type: And A A The goal: (A -> A) -> logic.And A A Its type is no function any more, and what is left is not the goal."),
    ("apply snd", "NoMatch 3", "apply snd", "snd", "After 3 arguments its type is no function any more, and what is left is not the goal."),
    ("apply snd", "goal 1 NotASort A", None, None, "The part 1 of the goal is used as a type, and is none: A is no sort."),
    ("cut r : A x", "type 0 NotProduct *", "cut r : A x", "A", "This is applied to an argument, and is no function: it has the type *."),
    ("convert A", "goal - NotConvertible - A ; A -> A", "convert A", "A", "A is not convertible with the goal A -> A."),
    ("unfold A", "NoBody A", "unfold A", "A", "A has no body: it is an assumption or a hypothesis."),
    ("unfold logic.And", "NotThere logic.And", "unfold logic.And", "logic.And", "logic.And does not occur in the goal."),
    ("commit", "ProofOpen", None, None, "A proof is open: qed ends it, and abort gives it up."),
    ("exact p", "NoGoal", None, None, "No goal is left: qed ends the proof."),
    ("qed", "GoalsLeft 2", None, None, "There are goals left (2). The command goals shows them."),
    ("undo", "NothingToUndo", None, None, "There is nothing that undo takes back. The command back takes a commit back, too."),
]

# Lines that take in modules and certificates.
FILES = [
    ("load foo", "NoModule foo", "foo", "foo is none of the modules that were named at the start."),
    ("load foo", "NotLoaded logic", None, "It uses the module logic, which is not loaded: load logic"),
    ("load foo", "BadFile 4 Form", None, "Line 4 of the module foo: Form"),
    ("instance foo L T ; U", "argument 2 - NotConvertible - A ; B", "U", "This has the type A, and should have the type B."),
    ("instance foo L T ; U", "argument 1 0 NoAxiom #", "T", "The sort # has no type in this system."),
    ("instance foo L T", "argument 1 Spent", None, "Argument 1: the budget of the line is used up."),
    ("instance foo L T", "WrongCount 2 1", None, "Parameters of the module: 2. Terms that are given: 1."),
    ("instance foo L T", "Reserved L", "L", "L is the name of a module, and can't be the label of an instance."),
    ("instance L L T", "Loaded L 3", "L", "There is a module with the label L already."),
    ("accept c", "Faulty x 1 Place 1", None, "The certificate's derivation of x breaks a rule at its node 1: Place 1"),
    ("accept c", "Unreadable BadLine 3", None, "The certificate can't be read: BadLine 3"),
    ("infer order.le", "UnknownName 6 order.le", "order.le", "order.le is of the module order, which is not loaded: load order"),
]


class Words(unittest.TestCase):
    def test_each_refusal_has_its_place_and_sentences(self):
        for line, said, pointed, wanted in CASES:
            with self.subTest(line=line, said=said):
                found = explained(line, said, KNOWN)
                self.assertEqual(" ".join(found.sentences), wanted)
                self.assertEqual(line[slice(*found.stretch)] if found.stretch else None, pointed)

    def test_steps_of_proofs(self):
        for line, said, text, pointed, wanted in STEPS:
            with self.subTest(line=line, said=said):
                found = explained(line, said, PROVING)
                self.assertIn(wanted, " ".join([found.where, *found.sentences]))
                shown = (found.text or line) if found.stretch else None
                self.assertEqual((shown, shown and shown[slice(*found.stretch)]), (text, pointed))

    def test_modules_and_certificates(self):
        for line, said, pointed, wanted in FILES:
            with self.subTest(line=line, said=said):
                found = explained(line, said, KNOWN)
                self.assertEqual(" ".join(found.sentences), wanted)
                self.assertEqual(line[slice(*found.stretch)] if found.stretch else None, pointed)

    def test_systems_that_have_the_rule(self):
        found = explained("infer \\A:*. \\x:A. x", "term - NoRule # *", KNOWN)
        self.assertIn("the system has no rule (#, *).", found.sentences[0])
        self.assertRegex(found.sentences[1], r"^Systems that have it: .*\bL2\b")

    def test_types_that_differ_once_they_are_computed(self):
        reduced = {"reduce eq a b": "@P:A -> *. P a -> P b", "reduce le a": "A"}
        found = explained("define c : le a := d", "term - NotConvertible 1.1 eq a b ; le a", Around(reduced.get))
        self.assertEqual(found.sentences[1:], ("Computed: @P:A -> *. P a -> P b", "against: A"))
        found = explained("define c : le a := d", "term - NotConvertible 1.1 eq a b ; le a", KNOWN)
        self.assertEqual(len(found.sentences), 1)


if __name__ == "__main__":
    unittest.main()
