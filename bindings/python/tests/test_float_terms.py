"""FloatTerms on examples worked out by hand; test_drawn.py has drawn ones."""
import array
import importlib
import importlib.util
import math
import pickle
import shutil
import threading
import unittest
from decimal import Decimal
from fractions import Fraction
from pathlib import Path

import fermion
from common import Refused, needs_numpy
from fermion import FloatTerms, Record, word

BENCH = Path(__file__).resolve().parents[3] / "bench" / "float_terms.py"


class Terms(unittest.TestCase):
    def test_real_and_complex(self):
        real = FloatTerms(2, [(1, 1, 0.5), (0, 3, 2), (1, 1, Fraction(1, 4)), (1, 1, Decimal("0.125")), (1, 1, True)])
        self.assertEqual((real.element(1, 1), real.element(0, 3), real.element(3, 3)), (1.875, -2.0, 1.875))
        self.assertIs(type(real.element(1, 1)), float)
        self.assertEqual((len(real), real.modes), (5, 2))
        self.assertEqual(list(real), [(1, 1, 0.5), (0, 3, 2.0), (1, 1, 0.25), (1, 1, 0.125), (1, 1, 1.0)])
        mixed = FloatTerms(2, [(1, 1, 0.5), (0, 3, 2j)])
        self.assertEqual((mixed.element(1, 1), mixed.element(0, 3)), (0.5 + 0j, -2j))
        self.assertIs(type(mixed.element(1, 1)), complex)
        self.assertIs(type(FloatTerms(2, [(1, 1, complex(0.5))]).element(1, 1)), complex)
        self.assertEqual((len(FloatTerms(64, [])), FloatTerms(64, []).element(2**64 - 1, 2**64 - 1)), (0, 0.0))

    def test_rounding_in_the_order_given(self):
        self.assertEqual(FloatTerms(1, [(0, 0, 1e16), (0, 0, 1.0), (0, 0, -1e16)]).element(0, 0), 0.0)
        self.assertEqual(FloatTerms(1, [(0, 0, 1e16), (0, 0, -1e16), (0, 0, 1.0)]).element(0, 0), 1.0)
        self.assertEqual(math.copysign(1, FloatTerms(2, [(0, 3, 0.0)]).element(0, 3)), 1)

    def test_matrices(self):
        terms = FloatTerms(2, [(word(1), word(0), 2.0), (0, 0, 0.5)])
        self.assertEqual(terms.matrix([1, 2], [1, 2, 3]), [[0.5, 0.0, 0.0], [2.0, 0.5, 0.0]])
        self.assertEqual(terms.matrix(iter([2]), array.array("Q", [1])), [[2.0]])
        self.assertEqual((terms.matrix([], [1]), terms.matrix([1, 2], [])), ([], [[], []]))
        self.assertEqual(FloatTerms(2, [(2, 1, 2j)]).matrix([2], [1, 2]), [[2j, 0j]])

    def test_refusals(self):
        good, huge = (0, 0, 1.0), 1.5e308
        for numbers, m, terms in [
            ((1, 1, 0), 0, []), ((1, 1, 0), 65, []), ((1, 1, 0), -1, []), ((1, 1, 0), 2, [good] * 2049),
            ((2, 1, 1), 2, [good, (4, 0, math.nan)]), ((2, 1, 2), 2, [good, good, (0, 4, 1.0)]),
            ((13, 1, 1), 2, [good, (1, 1, math.inf)]), ((13, 1, 0), 2, [(0, 0, math.nan), (4, 0, 1.0)]),
            ((13, 1, 1), 64, [good, (0, 0, complex(0, math.nan))]),
        ]:
            with Refused(self, *numbers):
                FloatTerms(m, terms)
        self.assertEqual(len(FloatTerms(2, [good] * 2048)), 2048)
        with Refused(self, 1, 1, 0):
            FloatTerms.from_columns(2, [0, 0], [0, 0], [1.0])
        terms = FloatTerms(2, [(0, 0, huge), (1, 1, -huge), (0, 0, huge)])  # their sum is infinite only where 0 is empty
        for _ in range(3):
            self.assertEqual(terms.element(1, 1), huge)
            with Refused(self, 13, 1, 2):
                terms.element(0, 0)
            with Refused(self, 12, 3, 0):
                terms.element(4, 4)
            with Refused(self, 12, 4, 0):
                terms.element(3, 4)
            with Refused(self, 12, 3, 1):
                terms.matrix([0, 4], [4])
            with Refused(self, 12, 4, 2):
                terms.matrix([1], [0, 1, 9])
            with Refused(self, 13, 1, 2):
                terms.matrix([1, 0], [1, 0])
        for wrong in (-1, 2**64):
            self.assertRaises(ValueError, terms.element, wrong, 0)
            self.assertRaises(ValueError, terms.element, 0, wrong)
            self.assertRaises(ValueError, terms.matrix, [0], [wrong])

    def test_ladders(self):
        terms = FloatTerms.from_ladders(3, [(((1, 0), (0, 1)), 0.5), (((0, 1), (1, 0)), 0.25), (((2, 0), (2, 1)), 1.5)])
        self.assertEqual(list(terms), [(1, 2, -0.25), (0, 0, 1.5), (4, 4, -1.5)])
        exact = Record.from_ladders(3, [(((1, 0), (0, 1)), 2), (((0, 1), (1, 0)), 1), (((2, 0), (2, 1)), 6)])
        self.assertEqual([[4 * entry for entry in row] for row in terms.matrix(range(8), range(8))], exact.matrix(range(8)))
        self.assertEqual(list(FloatTerms.from_ladders(1, {((0, 1),): 0.5j, (): 2})), [(1, 0, 0.5j), (0, 0, 2 + 0j)])
        self.assertEqual(len(FloatTerms.from_ladders(1, [((), 0.1), ((), -0.1)])), 0)
        with Refused(self, 2, 1, 1):
            FloatTerms.from_ladders(2, [((), 0.1), (((2, 1),), 0.1)])
        with Refused(self, 13, 1, 0):
            FloatTerms.from_ladders(2, [((), math.nan)])

    def test_columns(self):
        cre, ann = array.array("Q", [1, 2]), [2, 2**63]
        terms = FloatTerms.from_columns(64, cre, ann, array.array("d", [0.5, 0.25]))
        cre[0] = 0  # it was copied
        self.assertEqual(list(terms), [(1, 2, 0.5), (2, 2**63, 0.25)])
        self.assertEqual(list(FloatTerms.from_columns(64, cre, ann, (0.5, 1j))), [(0, 2, 0.5 + 0j), (2, 2**63, 1j)])

    @needs_numpy
    def test_columns_of_numpy(self):
        numpy = importlib.import_module("numpy")
        words = numpy.array([1, 2**63], numpy.uint64), numpy.array([2, 1], numpy.int64)
        for kind in (numpy.float64, numpy.float32, numpy.complex128, numpy.complex64, numpy.int32):
            coeff = numpy.array([3, -5], kind)
            terms = FloatTerms.from_columns(64, *words, coeff)
            self.assertEqual(list(terms), [(1, 2, 3), (2**63, 1, -5)])
            self.assertIs(type(terms.element(1, 2)), complex if "complex" in kind.__name__ else float)
            self.assertEqual(list(FloatTerms(64, zip(*words, coeff))), list(terms))
        both = numpy.array([1 + 2j, 3 - 4j, 5 + 6j])
        for part in (both, both[::2], both.real):
            n = len(part)
            self.assertEqual([number for _, _, number in FloatTerms.from_columns(1, [0] * n, [0] * n, part)], part.tolist())
        self.assertEqual(FloatTerms.from_columns(64, *words, [1.0, 2.0]).matrix(numpy.array([1]), numpy.array([2, 3])), [[1.0, 0.0]])
        self.assertRaises(ValueError, FloatTerms.from_columns, 64, numpy.array([-1]), [0], [1.0])
        square = numpy.ones((2, 2), numpy.uint64)
        self.assertRaises(TypeError, FloatTerms.from_columns, 64, square, square, [1.0] * 4)
        self.assertRaises(TypeError, FloatTerms.from_columns, 64, [0] * 4, [0] * 4, numpy.ones((2, 2)))

    def test_copies(self):
        for terms in (FloatTerms(2, [(1, 2, 0.1), (0, 0, -0.0)]), FloatTerms(2, [(1, 2, 0.1j)])):
            again = pickle.loads(pickle.dumps(terms))
            self.assertEqual((again.modes, list(again), repr(again)), (2, list(terms), repr(terms)))
            self.assertEqual(list(eval(repr(terms))), list(terms))

    def test_many_threads_on_one_list(self):
        terms = FloatTerms(11, [(1 << i % 11, 1 << i % 11, float(1 << i % 11)) for i in range(11)])
        wrong = []

        def ask(start):
            for i in range(4000):
                word = (start + 7 * i) % 2048
                if terms.element(word, word) != word:  # each mode counts its own value
                    wrong.append(word)
        threads = [threading.Thread(target=ask, args=(97 * k,)) for k in range(8)]
        for thread in threads:
            thread.start()
        for thread in threads:
            thread.join()
        self.assertEqual(wrong, [])

    @needs_numpy
    def test_a_complex_number_is_no_real_one(self):
        numpy = importlib.import_module("numpy")
        for coeff in (numpy.array([1 + 2j]), [numpy.complex128(1 + 2j)], [1 + 2j], numpy.array([1 + 0j])):
            with self.assertRaisesRegex(TypeError, "coefficient 0 is .*, not a real number"):
                fermion.mat_elem_real(2, [1], [1], coeff, 1, 1)
            self.assertEqual(fermion.mat_elem_complex(2, [1], [1], coeff, 1, 1), coeff[0])

    def test_numbers_too_large_for_a_float_are_named(self):
        for wrong in (lambda: fermion.FloatTerms(2, [(0, 0, 10**400)]),
                      lambda: fermion.FloatTerms.from_columns(2, [0], [0], [10**400])):
            self.assertRaisesRegex(OverflowError, "coefficient (is|0 is) too large for a float", wrong)

    def test_columns_may_be_iterators(self):
        terms = fermion.FloatTerms.from_columns(2, iter([1, 1]), iter([1, 2]), (x for x in [0.5, 0.25]))
        self.assertEqual((terms.element(1, 1), terms.element(1, 2)), (0.5, 0.25))
        with Refused(self, 1, 1, 0):
            fermion.FloatTerms.from_columns(2, [], [], (x for x in [1.0]))

    def test_an_element_costs_at_most_three_times_the_call_in_c(self):
        if not (shutil.which("cc") or shutil.which("gcc")):
            self.skipTest("there is no C compiler, with which the call is timed")
        spec = importlib.util.spec_from_file_location("float_terms", BENCH)
        bench = importlib.util.module_from_spec(spec)
        spec.loader.exec_module(bench)
        for with_complex, length, call, element in bench.measured([256, 2048]):
            self.assertLessEqual(element, 3 * call, (with_complex, length))


if __name__ == "__main__":
    unittest.main()
