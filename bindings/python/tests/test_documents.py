"""The examples in docstrings and documents run, and the sentences of the refusals are those of docs/RECORD.md."""
import doctest
import importlib
import inspect
import keyword
import os
import pkgutil
import re
import tempfile
import unittest
from pathlib import Path

import fermion
from fermion import _face, _work

HERE = Path(__file__).resolve().parent
RECORD = HERE.parents[2] / "docs" / "RECORD.md"
HEADER = HERE.parents[2] / "include" / "fermion.h"
MODULES = [importlib.import_module(f"fermion.{module.name}") for module in pkgutil.iter_modules(fermion.__path__)]
NAMES = {name: getattr(fermion, name) for name in fermion.__all__}


def load_tests(loader, tests, pattern):
    """One test for each docstring with examples, and one for the README."""
    for module in (fermion, *MODULES):
        tests.addTests(doctest.DocTestSuite(module, extraglobs=NAMES))
    finder = doctest.DocTestFinder(recurse=False)
    for name, method in _methods():
        found = finder.find(method, name, module=False, globs=dict(NAMES))
        tests.addTests(doctest.DocTestCase(test) for test in found if test.examples)
    tests.addTests(doctest.DocFileSuite(str(HERE.parent / "README.md"), module_relative=False))
    return tests


def _methods():
    """The methods of all classes. A module's suite leaves them out: a class is named after the package, its methods are not."""
    for kind in filter(inspect.isclass, NAMES.values()):
        for name, method in vars(kind).items():
            function = getattr(method, "__func__", method)  # a class method's own function
            if inspect.isfunction(function):
                yield f"fermion.{kind.__name__}.{name}", function


def _numbers(enum):
    return {member.name: member.value for member in enum}


class Documents(unittest.TestCase):
    def test_the_sentences_are_those_of_the_table(self):
        section = RECORD.read_text(encoding="utf-8").split("\n## Refusals\n")[1]
        rows = re.findall(r"^\| (\d+) \| ([^|]+) \|", section, re.M)
        self.assertEqual({int(number): sentence for number, sentence in rows}, fermion.SENTENCES)

    def test_a_number_without_a_sentence(self):
        self.assertIn("no words", str(fermion.Refusal(99, 0, 0)))

    def test_a_record_written_as_the_document_does(self):
        text = RECORD.read_text(encoding="utf-8")
        code = re.search(r"```python\n(.*?)```", text, re.S).group(1)
        example = bytes.fromhex("".join(re.findall(r"^\| \d+ to \d+ \| `([0-9A-F ]+)` \|", text, re.M)))
        names = {}
        exec(code, names)
        terms = [(1, 1, 1), (2, 2, -1)]
        self.assertEqual(names["write"](2, terms), example)
        self.assertEqual(names["read"](example), (2, terms))
        self.assertEqual(bytes(fermion.Record.build(2, terms)), example)
        turned = [(1, 2, 5), (2, 2, 7)]  # {0|1} and {1|1}: creations first, as the builders take them
        self.assertEqual(bytes(fermion.Record.build(2, turned)), names["write"](2, turned))
        self.assertEqual(names["read"](names["write"](2, turned)), (2, turned))
        self.assertEqual(bytes(fermion.Record.build(64, [])), names["write"](64, []))
        self.assertEqual(names["read"](names["write"](64, [])), (64, []))

    def test_every_function_of_the_header_is_bound(self):
        declared = set(re.findall(r"void fermion_(\w+)\(", HEADER.read_text(encoding="utf-8")))
        self.assertEqual(declared, set(_face.SHAPES))
        named = {f"{name}_" if keyword.iskeyword(name) else name for name in declared}  # `import` is a word of Python's
        self.assertLessEqual(named, set(fermion.__all__))

    def test_the_names_are_those_of_the_header(self):
        header = HEADER.read_text(encoding="utf-8")
        for enum, members in (("refusal", {"OK": 0, **_numbers(fermion.Reason)}), ("blocked", _numbers(fermion.Blocked))):
            listed = re.search(rf"enum fermion_{enum} \{{(.*?)\}}", header, re.S).group(1)
            self.assertEqual({name: int(number) for name, number in re.findall(r"FERMION_(\w+) = (\d+)", listed)}, members)
        constants = dict(re.findall(r"#define FERMION_(\w+) +(.*?) *(?:/\*.*)?$", header, re.M))
        self.assertEqual(constants["VERSION"], f'"{fermion.__version__}"')
        for name, number in [("MAX_MODES", fermion.MAX_MODES), ("MAX_TERMS", fermion.MAX_TERMS), ("MAX_RECORD", fermion.MAX_BYTES),
                             ("MAX_BASIS", fermion.MAX_BASIS), ("ROW", _work.ROW), ("REPORT", _face.REPORT),
                             ("MAX_REPORTED", fermion.MAX_REPORTED), ("MAX_LADDERS", fermion.MAX_LADDERS),
                             ("MAX_TEXT", fermion.MAX_TEXT), ("SHELF", fermion.SHELF), ("HALF", fermion.HALF),
                             ("SLOTS", fermion.SLOTS)]:
            self.assertEqual(int(constants[name]), number, name)
        self.assertRegex(constants["MAX_WEIGHT"], r"\b1\)? << 60\b|\b1152921504606846976")
        self.assertEqual(fermion.MAX_WEIGHT, 1 << 60)

    def test_the_names_are_those_of_the_document(self):
        listed = re.search(r"members of `Reason`:\n(.*?)\n\n", RECORD.read_text(encoding="utf-8"), re.S).group(1)
        named = {name: int(number) for number, name in re.findall(r"(\d+) `(\w+)`", listed)}
        self.assertEqual(named, _numbers(fermion.Reason))

    def test_all_names_are_there(self):
        self.assertEqual(sorted(fermion.__all__), sorted(set(fermion.__all__)))
        self.assertTrue((Path(fermion.__file__).parent / "py.typed").exists())
        for name in fermion.__all__:
            if callable(getattr(fermion, name)) and name not in ("Readable", "Writable"):
                self.assertTrue(getattr(fermion, name).__doc__, name)


class Loading(unittest.TestCase):
    def tearDown(self):
        fermion.load()

    def test_a_library_that_is_not_there(self):
        with tempfile.TemporaryDirectory() as folder:
            with self.assertRaisesRegex(FileNotFoundError, "FERMION_LIB"):
                fermion.load(os.path.join(folder, "libfermion.so"))
        self.assertEqual(fermion.apply(0, 0, 5).word, 5)  # the one loaded before is still there


if __name__ == "__main__":
    unittest.main()
