import os
import tempfile
import unittest

from yarrow_prompt.library import Declared, Library, library_of

FILES = {
    "logic.yar": "yarrow-module 1\nmodule logic\nassume A : *\n define  id : A -> A := \\x:A. x\nend\n",
    "order.yar": "yarrow-module 1\nmodule order\nuses logic\nparameter U : *\ndefine le := U\nend\n",
    "top.yar": "yarrow-module 1\nmodule top\nuses order\nuses logic\nuses elsewhere\nend\n",
    "one.yar": "yarrow-module 1\nmodule one\nuses two\nend\n",
    "two.yar": "yarrow-module 1\nmodule two\nuses one\nend\n",
    "c.cert": "yarrow-certificate 1\nsorts *\nassume A\nt sort *\nqed\ndefine b\nqed\nend\n",
}


class Files(unittest.TestCase):
    def setUp(self):
        folder = tempfile.TemporaryDirectory()
        self.addCleanup(folder.cleanup)
        self.folder = folder.name
        for name, text in FILES.items():
            with open(os.path.join(self.folder, name), "w") as file:
                file.write(text)

    def library(self, *names):
        return Library(names, self.folder)

    def test_what_files_declare(self):
        library = self.library("logic", "order", "c.cert")
        self.assertEqual(library.declared_in("logic"), [Declared("A", False), Declared("id", True)])
        self.assertEqual(library.declared_in("order"), [Declared("le", True)])
        self.assertEqual(library.certified_in("c"), [Declared("A", False), Declared("b", True)])
        self.assertEqual([library.declared_in("none"), library.certified_in("none")], [[], []])
        self.assertEqual([library.modules, library.certificates], [["logic", "order"], ["c"]])

    def test_each_module_comes_after_those_that_it_uses(self):
        self.assertEqual(self.library("top", "logic", "order").in_order(), ["logic", "order", "top"])
        self.assertEqual(self.library("logic", "top").in_order(), ["logic", "top"])
        self.assertEqual(self.library("one", "two").in_order(), ["two", "one"])
        self.assertEqual(self.library("top", "logic", "order").in_order(["order"]), ["logic", "order"])

    def test_parameters(self):
        library = self.library("logic", "order")
        self.assertEqual([it for it in library.modules if library.has_parameters(it)], ["order"])

    def test_words_of_the_command_line(self):
        found = library_of(["a/logic.yar", "a/order", "a/c.cert"])
        self.assertEqual((found.names, found.folder), (("logic", "order", "c.cert"), "a"))
        self.assertEqual(library_of([]).names, ())
        self.assertIsNone(library_of(["a/logic", "order"]))


if __name__ == "__main__":
    unittest.main()
