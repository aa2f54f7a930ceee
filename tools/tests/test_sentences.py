import unittest

from yarrow_tools.reading import near_names
from yarrow_tools.refusal import Refusal, refusal
from yarrow_tools.sentences import explained
from yarrow_tools.source import Source

HEAD = "yarrow-module 1\nmodule m\n"
# What comes after the line that is refused.
TAIL = "assume P : T\ndefine D := \\x:*. x -> P\nend\n"
IS_LETTER = "λ is a letter here: write \\x:A. b."

# A line of a module, its refusal, what of the line is pointed at, and the sentences.
READING = [
    ("assume a : ∀x:A. x", "BadFile 3 BadChar 11", "∀", "No token begins with '∀'. Write @x:A. B."),
    ("define a := fun x => x", "BadFile 3 BadChar 18", "=", "No token begins with '='. A function is \\x:A. b."),
    ("define a = b", "BadFile 3 BadChar 9", "=", "No token begins with '='. A definition has := in it."),
    ("define le-refl := A", "BadFile 3 BadChar 9", "-", "No token begins with '-'. A - is part of -> alone; a name has letters, digits and _."),
    ("define x' := A", "BadFile 3 BadChar 8", "'", "No token begins with '''. A name has letters, digits and _; a ' begins a sort."),
    ("define a := b % c", "BadFile 3 BadChar 14", "%", "No token begins with '%'. A comment is a line of its own; the command join takes comments after a declaration, too."),
    ("define a := é & b", "BadFile 3 BadChar 15", "&", "No token begins with '&'."),
    ("define a :=", "BadFile 3 Expected 11 Term", "", "The line ends, and here a term must begin. A declaration is one line; the command join makes one line of several."),
    ("define a := \\x:A.x", "BadFile 3 Expected 18 Dot", "A.x", "A.x is read as one name: put a blank after the dot, as in A. x"),
    ("define a := λx:A. x", "BadFile 3 Expected 15 End", "λx", IS_LETTER),
    ("define a := λ x:A. x", "BadFile 3 Expected 16 End", "λ", IS_LETTER),
    ("define a := \\x y:A. x", "BadFile 3 Expected 15 Colon", "y", "Here a ':' must come. A binder has one name and its type, as in \\x:A. \\y:A. b."),
    ("define a := f 0", "BadFile 3 Expected 14 End", "0", "Here the line must end. A number is no term: define it."),
    ("define a := (f \\x:A. x)", "BadFile 3 Expected 15 Close", "\\", "Here a ')' must come, for the '(' in column 13. As an argument, what begins with \\, @ or let is in parentheses."),
    ("define a := (f b", "BadFile 3 Expected 16 Close", "", "The line ends, and here a ')' must come, for the '(' in column 13."),
    ("define a := f b.", "BadFile 3 Expected 15 End", ".", "No dot ends a line."),
    ("define a b := c", "BadFile 3 Expected 9 Assign", "b", "Here ':=' must come. The form of the line is: define X := TERM, or define X : TERM := TERM"),
    ("define := c", "BadFile 3 Expected 7 Plain", ":=", "Here a name without dots must come. The form of the line is: define X := TERM, or define X : TERM := TERM"),
    ("define let := A", "BadFile 3 Expected 7 Plain", "let", "Here a name without dots must come. let is a word of the language, and no name."),
    ("define a := let in", "BadFile 3 Expected 16 Name", "in", "Here the name of a binder must come. in is a word of the language, and no name."),
    ("define a := let x : A in x", "BadFile 3 Expected 18 Assign", ":", "Here ':=' must come."),
    ("define a := " + "b" * 129, "BadFile 3 LongName 12", "b" * 129, "This name has more than 128 bytes."),
    ("define a := Prop", "Declaration 3 UnknownName 12 Prop", "Prop", "Prop is no sort here: the sort of types is *."),
    ("define a := m.b", "Declaration 3 UnknownName 12 m.b", "m.b", "Inside of its module it is called b."),
    ("define a := logic.and", "Declaration 3 UnknownName 12 logic.and", "logic.and", "logic.and is of another module, and there is no line: uses logic (which is not built yet)"),
    ("define a := c", "Declaration 3 UnknownName 12 c", "c", "c is no binder and no declaration before this line."),
    ("define a := 'set", "Declaration 3 UnknownSort 12 'set", "'set", "The system has no sort 'set."),
]
FLAWS = [
    ("define a : T -> T := \\x:T. id x", "term 1.1 NotConvertible - m.T ; *", "x", "This has the type T, and should have the type *."),
    ("define a : T := \\x:g. x", "term 0 NotASort _.T", "g", "This is used as a type, and is none: T is no sort."),
    ("define a : T := f g", "term 0 NotProduct m.T", "f", "This is applied to an argument, and is no function: it has the type T."),
    ("define a := #", "term - NoAxiom #", "#", "The sort # has no type in this system."),
    ("define a := f (g h)", "term 1.0.1 NoAxiom #", "f (g h)", "The sort # has no type in this system."),
    (
        "define a : U := p",
        "term - NotConvertible 1.1.1.1.1.0.1 @A:*. @x:A. @y:A. m.eq A x y -> (\\z:A. m.eq A x z) y ; @A:*. @x:A. @y:A. m.eq A x y -> m.eq A y x",
        "p",
        "This has the type (\\z:A. eq A x z) y, that is eq A x y, and should have the type eq A y x. (Both are under A : *, x : A, y : A, eq A x y.)",
    ),
    ("define a : U := p", "term - NotConvertible 1 m.P b ; m.P c", "p", "This has the type P b, and should have the type P c. There b is not c."),
    # Where a head may be unfolded, the path leads into what it is then.
    ("define a : U := p", "term - NotConvertible 0 m.D b ; m.D c", "p", "This has the type D b, and should have the type D c."),
    ("define a : U := p", "term - NotConvertible 0 m.D m.P b ; m.D m.P c", "p", "This has the type D P b, and should have the type D P c."),
    ("define a : U := p", "term - NotConvertible 1.1 m.P (m.D b c) ; m.P (m.D b d)", "p", "This has the type P (D b c), and should have the type P (D b d)."),
    ("define a : U := p", "term - NotConvertible 1 m.P (m.D b c) ; m.P b", "p", "This has the type P (D b c), and should have the type P b. There (D b c) is not b."),
    ("define a := let f := b : B in p f", "term 2.1 NotConvertible 1 f b ; f c", "f", "This has the type f b, and should have the type f c."),
    ("define a := \\x:*. *", "term 1 NotASort #", "*", "This has the type #, which has no sort in this system, so that the whole has no type."),
    ("define a := let x := b : B in *", "term 2 NotASort #", "*", "This has the type #, which has no sort in this system, so that the whole has no type."),
    ("define a := f b", "term 1 NotASort #", "b", "This should have the type #, which has no sort in this system."),
]
LINES = [
    ("define a := b", "Declaration 3 Deep", "define a := b", "A term on the way is deeper than 2,000 or larger than 1,000,000, or inference nests deeper than 4,000, or a comparison deeper than 2,000."),
    ("define a := b", "Declaration 3 Spent", "define a := b", "The module's budget of 1,000,000 units is used up here: this computes too long."),
    ("define a := b", "Declaration 3 Taken m.a 0", "a", "a is declared already. Take another name."),
    ("uses logic", "NotBuilt 3", "uses logic", "Lines with uses and with parameter are not built yet."),
    ("uses logic", "NoModule logic", "uses logic", "The module logic is not among the words of the command."),
    ("define a := b", "ContextFull 0", "yarrow-module 1", "There are more than 200,000 declarations."),
    ("define a := b", "Surprise 1 2", "yarrow-module 1", "Surprise 1 2"),
]


class Sentences(unittest.TestCase):
    def judge(self, line, said, pointed, wanted):
        source = Source("m.yar", (HEAD + line + "\n" + TAIL).encode())
        number, note = explained(source, refusal("refused m " + said))
        self.assertEqual((source.line(number)[note.start : note.end], note.text), (pointed, wanted))

    def test_what_is_refused_in_reading(self):
        for line, said, pointed, wanted in READING:
            with self.subTest(line=line):
                self.judge(line, said, pointed, wanted)

    def test_flaws(self):
        for line, said, pointed, wanted in FLAWS:
            with self.subTest(line=line, said=said):
                self.judge(line, "Declaration 3 " + said, pointed, wanted)

    def test_refusals_of_a_line_and_of_a_module(self):
        for line, said, pointed, wanted in LINES:
            with self.subTest(said=said):
                self.judge(line, said, pointed, wanted)

    def test_systems_that_have_the_rule(self):
        source = Source("m.yar", (HEAD + "define a := \\A:*. \\x:A. x\nend\n").encode())
        note = explained(source, refusal("refused m Declaration 3 term - NoRule # *")).note
        self.assertEqual(note.sentences[0], "This needs a product of a domain of sort # and a body of sort *, and the system has no rule (#, *).")
        self.assertRegex(note.sentences[1], r"^Systems that have it: .*\bL2\b.*\bHOL\b")
        self.assertNotRegex(note.sentences[1], r"\bLP,|\bST\b")

    def test_names_nearby_and_names_later(self):
        text = HEAD + "define first := A\ndefine b := frist\ndefine c := last\ndefine last := A\nend\n"
        source = Source("m.yar", text.encode())
        self.assertEqual(explained(source, refusal("refused m Declaration 4 UnknownName 12 frist")).note.text, "frist is no binder and no declaration before this line. Near to it: first.")
        self.assertEqual(explained(source, refusal("refused m Declaration 5 UnknownName 12 last")).note.text, "last is declared later, in line 6.")
        self.assertEqual(explained(source, refusal("refused m Declaration 4 Taken m.first 0")).note.text, "first is declared already in line 3. Take another name.")

    def test_names_nearby_among_many(self):
        known = [f"part{it % 7}.lemma_{it}" for it in range(10_000)] + ["transitive"]
        self.assertEqual(near_names("transtive", known), ["transitive"])
        self.assertEqual(near_names("part4.lema_774", known)[:1], ["part4.lemma_774"])


class Refusals(unittest.TestCase):
    def test_a_refusal_is_taken_apart(self):
        self.assertEqual(refusal("refused m Declaration 7 term 1.1 NoRule # *"), Refusal("m", 7, "NoRule", "# *", "term", "1.1"))
        self.assertEqual(refusal("refused m BadFile 4 Form"), Refusal("m", 4, "Form", ""))
        self.assertEqual(refusal("refused m NotBuilt 3"), Refusal("m", 3, "NotBuilt", ""))
        self.assertEqual(refusal("refused m ContextFull 0"), Refusal("m", None, "ContextFull", "0"))

    def test_other_lines_are_none(self):
        for line in ("done 3", "m.a : *", "usage", "", "refused system"):
            self.assertIsNone(refusal(line))


if __name__ == "__main__":
    unittest.main()
