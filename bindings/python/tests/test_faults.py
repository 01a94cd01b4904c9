"""Faults that were there once: numbers that wrap, a folder near the root, nested products, types, memory nobody asked for."""
import copy
import importlib
import os
import pickle
import shutil
import subprocess
import sys
import tempfile
import tracemalloc
import unittest
from pathlib import Path
from unittest import mock

import fermion
from common import ROW, Int64, Refused, branching, needs_numpy, one, told
from fermion import Record, word
from fermion import _face

PACKAGE = Path(fermion.__file__).resolve().parent
LIBRARY = Path(os.environ.get("FERMION_LIB") or PACKAGE.parents[2] / "target" / "native" / "libfermion.so").resolve()
USE = '''
import mmap
from array import array
from typing import List, Optional, Tuple

import fermion
from fermion import Counted, FloatTerms, Product, Record, Reason, Refusal, Report, Share, Shelf, Term, commutator, word

a: Record = Record.build(2, [(word(0), word(1), 1)])
b: Record = Record.ladders(2, [(1, 1), (0, 0)], coeff=3)
c: Record = Record.from_ladders(2, {((0, 1), (1, 0)): 2, (): 1}) + Record.from_ladders(2, [([(0, 1)], 1)])
nested: Product = commutator(commutator(a, b), commutator(b, commutator(c, a)))
sums: Record = a + b - 2 * c * a * 3 + (-b) ** 2 + nested - nested.record + commutator(a, b).record
room = mmap.mmap(-1, 80)
in_room: Record = fermion.add(a, b, out=room)
read: int = fermion.check(array("B", bytes(a))).terms + fermion.check(room).modes + len(a.data) + len(a.columns.cre)
in_both: Product = fermion.mul(a, memoryview(bytes(b)), work=room, out=bytearray(100))
known: List[Term] = list(sums)
coefficient: int = sums[word(0), word(1)]
matrix: List[List[int]] = sums.matrix(range(4))
real: float = FloatTerms(2, [(1, 1, 0.5)]).element(1, 1)
complexes: List[List[complex]] = FloatTerms.from_ladders(2, {((0, 1), (1, 0)): 0.5j}).matrix([1, 2], [1, 2])
ready: Record = fermion.number(2) * fermion.hopping(2, 0, 1) + fermion.interaction(2, 0, 1)
report: Report = Report.of([a, bytes(b), commutator(a, b)])
counted: Counted = report.add(bytearray(bytes(a)))
own: Optional[Refusal] = fermion.report_add(b"", array("Q", report.numbers)).refusal
shares: Tuple[Share, ...] = Report.from_bytes(bytes(report)).ranks
weight: int = Report(report.numbers).weight + shares[1].weight if counted else report.largest
parsed: Record = Record.parse(2, "1 0^ 1_\\n") + fermion.import_(2, b"2\\n", work=bytearray(48), out=room)
lines: List[str] = [parsed.text(), fermion.export(bytes(a), out=room), Record.parse(2, bytearray(b"3\\n"), ceiling=48).text()]
shelf: Shelf = Shelf(mmap.mmap(-1, fermion.SHELF))
slot: int = shelf.put(0, a) + Shelf().put(1, bytes(b)) + fermion.shelf_put(bytearray(fermion.SHELF), 0, commutator(a, b))
kept: bytes = shelf.get(0, slot, out=bytearray(fermion.HALF)) + fermion.shelf_get(bytes(shelf), 0, slot)
shelf.drop(0, slot)
fermion.shelf_clear(memoryview(bytearray(8)))
shelf.clear()
try:
    a.element(4, 4)
except Refusal as refusal:
    reason: Reason = refusal.reason
    number: int = refusal.number
'''


class WholeNumbers(unittest.TestCase):
    def check_numbers(self, int64):
        with Refused(self, 9, 0, 0):
            Record.build(1, [(1, 1, int64(2**62))] * 4)
        self.assertEqual(word(int64(63)), 2**63)
        self.assertEqual(list(fermion.modes(int64(2**62 + 1))), [0, 62])
        plain = Record.build(63, [(2**62, 5, -7), (2**62, 5, -1)])
        self.assertEqual(Record.build(int64(63), [(int64(2**62), int64(5), int64(-7)), (int64(2**62), 5, int64(-1))]), plain)
        self.assertEqual(plain[int64(2**62), int64(5)], -8)
        self.assertEqual(Record.ladders(int64(3), [(int64(2), int64(1)), (int64(0), int64(1))], int64(2**60)),
                         Record.build(3, [(5, 0, -2**60)]))
        self.assertEqual(int64(4) * plain * int64(2), Record.build(63, [(2**62, 5, -64)]))
        self.assertEqual(one(2, (0,), (0,)) ** int64(3), one(2, (0,), (0,)))
        with Refused(self, 8, 0, 0):
            plain * int64(2**59)
        self.assertEqual(plain.element(int64(2**62), int64(5)), 8)
        self.assertEqual(fermion.apply(int64(4), int64(1), int64(3)), (6, -1))
        self.assertEqual(fermion.FloatTerms(int64(2), [(int64(1), int64(1), 0.5)]).element(int64(1), int64(1)), 0.5)
        for wrong in (lambda: fermion.apply(0, 0, int64(-1)), lambda: fermion.FloatTerms(2, []).element(int64(-1), 0),
                      lambda: Record.build(64, [(int64(-1), 0, 1)]), lambda: word(int64(64))):
            self.assertRaises(ValueError, wrong)

    def test_numbers_that_wrap_at_64_bits(self):
        self.check_numbers(Int64)

    @needs_numpy
    def test_numbers_of_numpy(self):
        numpy = importlib.import_module("numpy")
        self.check_numbers(numpy.int64)
        self.assertEqual(word(numpy.uint8(63), numpy.int32(0)), 2**63 + 1)
        self.assertEqual(Record.build(numpy.uint8(64), [(numpy.uint64(2**63), 0, numpy.int8(-128))] * 2),
                         Record.build(64, [(2**63, 0, -256)]))
        self.assertEqual(numpy.uint64(2) * Record.build(1, [(1, 0, 3)]), Record.build(1, [(1, 0, 6)]))

    def test_what_is_no_whole_number_is_named(self):
        a = one(2, (0,), (0,))
        for message, wrong in [
            ("term 3: the coefficient is 1.5, not a whole number", lambda: Record.build(1, [(1, 1, 1)] * 3 + [(1, 1, 1.5)])),
            ("term 1: the creation word is 1.0,", lambda: Record.build(1, [(1, 1, 1), (1.0, 1, 1)])),
            ("term 0: the annihilation word is None,", lambda: Record.build(1, [(1, None, 1)])),
            ("the mode count is 2.0,", lambda: Record.build(2.0, [])),
            ("the mode count is '2',", lambda: fermion.FloatTerms("2", [])),
            ("mode 1 of the word is 0.5,", lambda: word(1, 0.5)),
            ("product 1: the coefficient is 1.0,", lambda: Record.from_ladders(2, [((), 1), ((), 1.0)])),
            ("product 0, ladder 1: the mode is 1.0,", lambda: Record.ladders(2, [(0, 1), (1.0, 0)])),
            ("product 0, ladder 0: the action is '\\^',", lambda: Record.ladders(2, [(0, "^")])),
            ("the bra is 1.0,", lambda: a.element(1.0, 1)),
            ("the ket is 1.0,", lambda: fermion.element(a, 1, 1.0)),
            ("basis word 2 is 3.0,", lambda: a.matrix([0, 1, 3.0])),
            ("the exponent is 0.5,", lambda: a ** 0.5),
            ("the creation word is 1.0,", lambda: a[1.0, 1]),
            ("term 1: the creation word is 0.5,", lambda: fermion.FloatTerms(2, [(0, 0, 1.0), (0.5, 0, 1.0)])),
            ("term 0: the coefficient is '1',", lambda: fermion.FloatTerms(2, [(0, 0, "1")])),
            ("product 0: the coefficient is None,", lambda: fermion.FloatTerms.from_ladders(2, {(): None})),
            ("coefficient 1 is '2',", lambda: fermion.mat_elem_real(1, [0, 0], [0, 0], [1.0, "2"], 0, 0)),
            ("the ket is 1.0,", lambda: fermion.FloatTerms(2, []).element(1, 1.0)),
            ("the ceiling is 1e\\+16,", lambda: fermion.mul(a, a, ceiling=1e16)),
            ("bra 1 is 1.0,", lambda: fermion.FloatTerms(2, []).matrix([1, 1.0], [1])),
        ]:
            with self.assertRaisesRegex(TypeError, message):
                wrong()

    def test_what_has_another_form_is_named(self):
        for message, wrong in [
            (r"term 1 is \(1, 2\), not \(creation word, annihilation word, coefficient\)",
             lambda: Record.build(1, [(1, 1, 1), (1, 2)])),
            (r"term 0 is 1, not \(creation word,", lambda: Record.build(1, [1, 1, 1])),
            (r"term 0 is \(0, 0\), not \(creation word,", lambda: fermion.FloatTerms(2, [(0, 0)])),
            (r"product 0, ladder 0 is 3, not \(mode,", lambda: Record.ladders(4, (3, 1))),
            (r"product 0, ladder 0 is 3, not \(mode,", lambda: Record.from_ladders(4, {(3, 1): 1})),
            (r"product 0, ladder 0 is '3', not \(mode,", lambda: Record.ladders(4, "3^ 0_")),
            (r"product 1 is 5, not \(ladders, coefficient\)", lambda: Record.from_ladders(4, [((), 1), 5])),
        ]:
            with self.assertRaisesRegex(TypeError, message):
                wrong()


class Folders(unittest.TestCase):
    def ran(self, code, folder, **environment):
        kept = {name: value for name, value in os.environ.items() if name not in ("FERMION_LIB", "PYTHONPATH")}
        return subprocess.run([sys.executable, "-c", code, str(folder)], capture_output=True, text=True,
                              env={**kept, **environment})

    def test_a_folder_near_the_root(self):
        above = Path(tempfile.gettempdir()).resolve()
        if len(above.parents) != 1:
            self.skipTest(f"the folder for temporary files, {above}, does not lie in the root")
        folder = Path(tempfile.mkdtemp(prefix="fermion_", dir=above))  # a package of this name, with two folders above it
        self.addCleanup(shutil.rmtree, folder)
        shutil.copytree(PACKAGE, folder, dirs_exist_ok=True, ignore=shutil.ignore_patterns("__pycache__", "*.so"))
        code = (f"import sys; sys.path.append({str(above)!r}); import {folder.name} as fermion; "
                "print(fermion.apply(0, 0, 5).word)")
        answer = self.ran(code, folder, FERMION_LIB=str(LIBRARY))
        self.assertEqual((answer.stdout, answer.stderr), ("5\n", ""))
        answer = self.ran(code, folder)
        self.assertEqual(answer.stdout, "")
        self.assertRegex(answer.stderr, r"FileNotFoundError: the library is not there .*tools/shared_object.sh.*FERMION_LIB")

    def test_a_library_beside_the_package(self):
        with tempfile.TemporaryDirectory() as above:
            folder = Path(above, "a", "b", "c", "fermion")
            shutil.copytree(PACKAGE, folder, ignore=shutil.ignore_patterns("__pycache__", "*.so"))
            code = ("import sys; sys.path.insert(0, sys.argv[1]); import fermion; fermion.apply(0, 0, 5); "
                    "print(open('/proc/self/maps').read().count('libfermion.so') > 0, fermion.__file__)")
            absent = self.ran(code, folder.parent)
            self.assertIn("FileNotFoundError", absent.stderr)
            for place in (folder, Path(above, "a", "target", "native")):
                place.mkdir(parents=True, exist_ok=True)
                os.symlink(LIBRARY, place / "libfermion.so")
                answer = self.ran(code, folder.parent)
                self.assertEqual((answer.stdout, answer.stderr), (f"True {folder}/__init__.py\n", ""), place)
                (place / "libfermion.so").unlink()

    def test_where_the_library_is_looked_for(self):
        self.assertEqual(_face._places(Path("/fermion")), [Path("/fermion/libfermion.so")])
        self.assertEqual(_face._places(Path("/r/bindings/python/fermion")), [
            Path("/r/bindings/python/fermion/libfermion.so"), Path("/r/target/native/libfermion.so")])

    def test_another_library_is_named(self):
        other = importlib.import_module("_ctypes")
        if not hasattr(other, "__file__"):
            self.skipTest("this Python has no shared object to load in the library's place")
        with self.assertRaisesRegex(ImportError, f"{other.__file__} has no function fermion_"):
            fermion.load(other.__file__)
        self.assertEqual(fermion.apply(0, 0, 5).word, 5)  # the one loaded before is still there


class Nested(unittest.TestCase):
    def test_an_answer_is_taken_wherever_a_record_is(self):
        a, b, c = one(2, (0,), (1,)), one(2, (1,), (0,)), one(2, (1,), ())
        inner = fermion.commutator(a, b)  # n0 - n1
        self.assertEqual(fermion.commutator(inner, c).record, one(2, (1,), (), -1))
        self.assertEqual(fermion.commutator(c, inner).record, c)
        self.assertEqual(fermion.add(inner, inner), 2 * inner.record)
        self.assertEqual(fermion.check(inner), (2, 2, 2))
        self.assertEqual(bytes(fermion.block(inner, 2)), bytes(fermion.block(inner.record, 2)))
        self.assertEqual([fermion.element(inner, w, w) for w in range(4)], [0, 1, -1, 0])
        self.assertEqual(Record(inner), inner.record)
        self.assertEqual(inner.record.commutator(fermion.mul(c, a)), inner.record.commutator(c * a))
        self.assertTrue(fermion.compare(inner, inner.record).equal)
        self.assertEqual(fermion.branches(inner, c), fermion.branches(inner.record, c))

    def test_an_answer_is_a_record(self):
        a, b = one(2, (0,), (1,)), one(2, (1,), (0,))
        commutator = fermion.commutator
        answer = commutator(a, b)
        self.assertTrue(answer == a.commutator(b) == answer and not answer != answer.record)
        self.assertEqual({answer, answer.record}, {a.commutator(b)})
        self.assertEqual((len(answer), bool(commutator(a, a)), len(commutator(a, a))), (2, False, 0))
        self.assertEqual(list(answer), [(1, 1, 1), (2, 2, -1)])
        self.assertEqual((answer[1, 1], answer[2, 2], answer.modes, answer.weight), (1, -1, 2, 2))
        self.assertEqual((answer.adjoint(), answer.matrix([1, 2])), (answer.record, [[1, 0], [0, -1]]))
        self.assertEqual(str(answer), "1 {0|0} - 1 {1|1}")
        self.assertIs(type(answer.record), Record)
        for again in (pickle.loads(pickle.dumps(answer)), copy.copy(answer), copy.deepcopy(answer), eval(repr(answer), vars(fermion))):
            self.assertEqual((type(again), again, again.branches), (fermion.Product, answer, 4))

    def test_operators_with_an_answer_on_either_side(self):
        a, b = one(1, (), (0,)), one(1, (0,), ())
        ab, ba = fermion.mul(a, b), fermion.mul(b, a)
        unit = one(1, (), ())
        for made in (ab + ba, ab.record + ba, ab + ba.record):
            self.assertEqual(made, unit)
        for made in (ab - unit, -ba, -1 * ba, ba * -1, (ab - unit) * ba, unit - ab - unit - unit + ab - ba + unit):
            self.assertEqual(made, one(1, (0,), (0,), -1))
        self.assertEqual((ab ** 2, ba * ab), (ab.record, Record.build(1, [])))
        self.assertEqual(unit - ab, ba.record)
        self.assertEqual(a * ba, a)


class Types(unittest.TestCase):
    def test_mypy_finds_nothing(self):
        mypy = shutil.which("mypy")
        if mypy is None:
            self.skipTest("mypy is not there")
        with tempfile.TemporaryDirectory() as folder:
            use = Path(folder, "use.py")
            use.write_text(USE)
            answer = subprocess.run(
                [mypy, "--strict", "--cache-dir", os.path.join(folder, "cache"), str(PACKAGE), str(use)],
                capture_output=True, text=True, cwd=PACKAGE.parent, env={**os.environ, "MYPYPATH": str(PACKAGE.parent)})
        self.assertEqual((answer.returncode, answer.stderr), (0, ""), answer.stdout)

    def test_what_mypy_reads_runs(self):
        names = {}
        exec(USE, names)
        self.assertEqual((names["number"], names["real"], names["complexes"]), (12, 0.5, [[0j, 0.5j], [0j, 0j]]))
        self.assertEqual((names["read"], bytes(names["room"])), (1 + 2 + 56 + 1, b"1 0^ 1_\n" + bytes(72)))
        self.assertEqual(names["lines"], ["2\n1 0^ 1_\n", "1 0^ 1_\n", "3\n"])
        self.assertEqual((names["weight"], names["own"].args), (2 * (1 + 3 + 6 + 1), (1, 1, 0)))
        self.assertEqual((names["slot"], names["kept"]), (0, 2 * bytes(names["a"])))


class Memory(unittest.TestCase):
    def peak(self, call):
        """The most bytes that Python held during a call, beyond those before it."""
        tracemalloc.start()
        try:
            call()
            return tracemalloc.get_traced_memory()[1]
        finally:
            tracemalloc.stop()

    def test_23_branching_modes(self):
        a, b = branching(23)
        self.assertEqual((len(bytes(a)), len(bytes(b))), (56, 56))

        def refused():
            for call in (fermion.mul, fermion.commutator, fermion.anticommutator, lambda a, b: a * b):
                with Refused(self, 7, 0, 0):
                    call(a, b)
            with Refused(self, 7, 0, 0):
                fermion.mul_cmpnts((0, 2**23 - 1), (2**23 - 1, 0))
        self.assertLess(self.peak(refused), 1 << 16)

    def test_more_branches_than_can_be_counted(self):
        a, b = branching(64)

        def refused(call):
            with Refused(self, 7, 0, 0):
                call(a, b)
        self.assertLess(self.peak(lambda: refused(fermion.commutator)), 1 << 16)
        self.assertLess(self.peak(lambda: refused(fermion.mul)), (1 << 24) + (1 << 16))

    def test_more_is_the_callers_word(self):
        self.assertEqual(fermion.WORK_CEILING, 1 << 24)
        a, b = branching(20)
        with Refused(self, 7, 0, 0):  # 24 * 2^20 bytes
            fermion.mul(a, b)
        for lent in ({"ceiling": ROW << 20}, {"work": bytearray(ROW << 20)}):
            with Refused(self, 10, 0, 0):
                fermion.mul(a, b, **lent)
        with Refused(self, 7, 0, 0):
            fermion.commutator(a, b, ceiling=ROW << 20)  # and one branch of b a
        with Refused(self, 10, 0, 0):
            fermion.commutator(a, b, ceiling=(ROW << 20) + ROW)
        self.assertLess(self.peak(lambda: fermion.mul(*branching(11))), (ROW << 11) + (1 << 17))

    def test_one_try(self):
        from fermion import _work
        called = []

        def counted(name, *args):
            called.append((name, [len(arg) for arg in args[2:]]))
            return _face.call(name, *args)
        with mock.patch.object(_work, "call", counted):
            fermion.mul(*branching(3))
            fermion.anticommutator(*branching(3))
            with Refused(self, 7, 0, 0):
                fermion.mul(*branching(3), ceiling=8 * ROW - 1)
        self.assertEqual([name for name, _ in called], ["branches", "mul", "branches", "anticommutator", "branches", "mul"])
        self.assertEqual([lengths[0] for _, lengths in called[1::2]], [8 * ROW, 9 * ROW, 0])

    def test_8_comes_before_7(self):
        for count in (23, 64):  # more than the ceiling; more than can be counted
            a, b = branching(count)
            with Refused(self, 8, 0, 0):
                fermion.mul(2**40 * a, 2**40 * b)
            with Refused(self, 7, 0, 0):
                fermion.mul(a, b)
        with Refused(self, 7, 0, 0):
            fermion.branches(a, b)
        with Refused(self, 6, 0, 0):
            fermion.mul(a, one(2, (), ()))

    def test_few_branches_whose_other_order_has_too_many_to_count(self):
        annihilate, create = branching(64)
        full = 2**64 - 1
        self.assertEqual(told(fermion.mul(create, annihilate)), (Record.build(64, [(full, full, 1)]), 1))
        self.assertEqual(fermion.mul_cmpnts((full, 0), (0, full)), [(full, full, 1)])
        for call in (fermion.commutator, fermion.anticommutator):
            with Refused(self, 7, 0, 0):
                call(create, annihilate)

    def test_a_ceiling_of_the_callers_where_the_other_order_cannot_be_counted(self):
        full, subsets = 2**64 - 1, [(s, s, 1) for s in range(1, 1024)]
        a, b = Record.build(64, [*subsets, (full, 0, 1)]), Record.build(64, [*subsets, (0, full, 1)])
        with Refused(self, 7, 0, 0):
            fermion.branches(a, b)
        with Refused(self, 7, 0, 0):  # 1,023 x 1,023 pairs and more: 25 MB
            fermion.mul(a, b)
        product = fermion.mul(a, b, ceiling=1 << 25)
        # {s|s} times {t|t} has one row, {s|s} times {|full} and {full|} times {t|t} have none, {full|} times {|full} has one
        self.assertEqual(product.branches, 1023**2 + 1)


if __name__ == "__main__":
    unittest.main()
