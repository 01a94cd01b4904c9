"""Operators as one writes them, worked out by hand: arithmetic, ladders, indexing, columns and matrices."""
import copy
import importlib
import pickle
import sys
import unittest
from unittest import mock

import fermion
from common import EXAMPLE, Int64, Refused, needs_numpy, one, term
from fermion import Reason, Record, Refusal, Term, hopping, interaction, number, word
from fermion import _matrix, _record


class Arithmetic(unittest.TestCase):
    def setUp(self):
        self.n0, self.n1, self.hop = one(2, (0,), (0,)), one(2, (1,), (1,)), one(2, (0,), (1,))
        self.none, self.unit = Record.build(2, []), one(2, (), ())

    def test_sums_and_multiples(self):
        self.assertEqual(str(3 * self.n0 + self.n1 * 2 - self.hop), "3 {0|0} - 1 {0|1} + 2 {1|1}")
        self.assertEqual(self.n0 + self.n0, 2 * self.n0)
        self.assertEqual(self.n0 - self.n0, self.none)
        self.assertEqual((0 * self.n0, self.n0 * 0, -self.none), (self.none,) * 3)
        self.assertEqual((-self.hop, -1 * self.hop, +self.hop), (one(2, (0,), (1,), -1),) * 2 + (self.hop,))
        self.assertEqual(str(-(self.n0 - self.n1)), "-1 {0|0} + 1 {1|1}")
        self.assertEqual(True * self.n0, self.n0)

    def test_a_whole_number_is_as_many_units(self):
        self.assertEqual((self.n0 + 3, 3 + self.n0), (self.n0 + 3 * self.unit,) * 2)
        self.assertEqual((self.n0 - 3, 3 - self.n0), (self.n0 - 3 * self.unit, 3 * self.unit - self.n0))
        self.assertEqual(sum([self.n0, self.hop, self.n0]), 2 * self.n0 + self.hop)
        self.assertEqual(self.hop * self.hop.adjoint(), self.n0 - self.n0 * self.n1)  # a0+ a1 a1+ a0 = n0 (1 - n1)
        self.assertEqual(self.n0 * (1 - self.n1), self.n0 - self.n0 * self.n1)
        answer = fermion.mul(self.n0, self.n0)
        self.assertEqual((answer + 1, 1 + answer, answer - 1, 1 - answer),
                         (self.n0 + 1, self.n0 + 1, self.n0 - 1, 1 - self.n0))
        with Refused(self, 9, 0, 0):
            self.n0 + 2**60

    def test_products(self):
        self.assertEqual(self.hop * self.n1, self.hop)  # a0+ a1 a1+ a1 = a0+ a1
        self.assertEqual(self.n1 * self.hop, self.none)
        self.assertEqual(self.n0 * self.n1, one(2, (0, 1), (0, 1), -1))
        self.assertEqual(self.hop.commutator(self.n1), self.hop)
        self.assertEqual(self.n1.commutator(self.hop), -self.hop)
        self.assertEqual(self.hop.anticommutator(self.n1), self.hop)
        self.assertEqual(self.hop.commutator(bytes(self.n1)), self.hop)
        self.assertEqual(bytes(self.hop.commutator(self.hop.adjoint())), EXAMPLE)

    def test_powers(self):
        both = self.n0 + self.n1
        self.assertEqual(both ** 0, self.unit)
        self.assertEqual(self.none ** 0, self.unit)
        self.assertEqual(both ** 1, both)
        # (n0 + n1)^k is n0 + n1 and (2^k - 2) n0 n1, which is -{0,1|0,1}
        for k in (2, 3, 5, 8, 13):
            self.assertEqual(both ** k, both - (2**k - 2) * one(2, (0, 1), (0, 1)))
        self.assertEqual(self.hop ** 2, self.none)
        self.assertEqual(self.n0 ** 10**6, self.n0)
        self.assertRaises(ValueError, lambda: both ** -1)
        with Refused(self, 8, 0, 0):
            (2**20 * self.unit) ** 4
        self.assertEqual((2**20 * self.unit) ** 3, 2**60 * self.unit)

    def test_refusals_are_those_of_the_calls(self):
        with Refused(self, 6, 0, 0):
            self.n0 + one(3, (), ())
        with Refused(self, 6, 0, 0):
            self.n0 * one(3, (), ())
        with Refused(self, 9, 0, 0):
            2**60 * self.n0 + self.n0
        with Refused(self, 8, 0, 0):
            2**59 * (self.n0 + self.n1) * 2
        with Refused(self, 9, 0, 0):
            self.n0 * (2**60 + 1)
        with Refused(self, 1, 2, 0):
            self.n0.commutator(b"")
        with Refused(self, 12, 3, 0):
            self.n0.element(4, 0)

    def test_what_is_no_operator(self):
        for other in (1.5, "1", None, EXAMPLE, 2.0):
            for wrong in (lambda: self.n0 + other, lambda: other + self.n0, lambda: self.n0 - other, lambda: other - self.n0,
                          lambda: self.n0 * other, lambda: other * self.n0):
                self.assertRaises(TypeError, wrong)
        self.assertFalse(self.n0 == 1)
        self.assertTrue(self.n0 != EXAMPLE)

    def test_figures(self):
        mixed = Record.build(64, [(word(0, 1), 0, 1), (word(63), word(0, 2), 1)])
        self.assertEqual((mixed.is_hermitian(), mixed.conserves_particle_number()), (False, False))
        self.assertEqual((self.n0.is_hermitian(), self.n0.conserves_particle_number()), (True, True))
        self.assertEqual((mixed.max_n_body(), mixed.active_modes(), mixed.weight), (2, word(0, 1, 2, 63), 2))
        self.assertEqual(mixed.adjoint(), Record.build(64, [(0, word(0, 1), -1), (word(0, 2), word(63), -1)]))

    @needs_numpy
    def test_numpy_leaves_records_alone(self):
        numpy = importlib.import_module("numpy")
        for three in (numpy.int64(3), numpy.uint8(3)):
            self.assertEqual(three * self.n0, 3 * self.n0)
            self.assertEqual(self.n0 * three, 3 * self.n0)
        self.assertRaises(TypeError, lambda: numpy.float64(3) * self.n0)
        self.assertEqual((numpy.int64(3) + self.n0, numpy.int64(3) - self.n0), (3 + self.n0, 3 - self.n0))
        answer = fermion.mul(self.n0, self.n0)
        self.assertEqual((numpy.int64(3) * answer, answer * numpy.int64(3)), (3 * self.n0,) * 2)


    @needs_numpy
    def test_numpy_takes_a_record_for_one_thing(self):
        numpy = importlib.import_module("numpy")
        both = numpy.array([self.n0, self.hop], dtype=object)
        self.assertEqual((both.shape, both[1]), ((2,), self.hop))
        self.assertEqual(numpy.sum([self.n0, self.n0, self.hop]), 2 * self.n0 + self.hop)
        self.assertEqual(numpy.dot([2, 3], [self.n0, self.hop]), 2 * self.n0 + 3 * self.hop)
        self.assertEqual(numpy.sum([fermion.mul(self.n0, self.n0)] * 2), 2 * self.n0)
        self.assertRaises((TypeError, ValueError), lambda: numpy.array(self.n0, dtype=float))
        self.assertRaises(TypeError, lambda: self.n0 * numpy.array([1, 2]))


class Ladders(unittest.TestCase):
    def test_signs_are_kept(self):
        self.assertEqual(Record.ladders(2, ((0, 1), (1, 1))), one(2, (0, 1), ()))
        self.assertEqual(Record.ladders(2, ((1, 1), (0, 1))), one(2, (0, 1), (), -1))
        self.assertEqual(Record.ladders(2, ((0, 0), (1, 0))), one(2, (), (0, 1)))
        self.assertEqual(Record.ladders(2, ((1, 0), (0, 0))), one(2, (), (0, 1), -1))
        self.assertEqual(Record.ladders(2, ((1, 0), (0, 1))), one(2, (0,), (1,), -1))
        self.assertEqual(Record.ladders(4, ((3, 1), (0, 0))), one(4, (3,), (0,)))
        self.assertEqual(Record.ladders(4, ((3, 1), (0, 0), (0, 1))), one(4, (3,), ()) - one(4, (0, 3), (0,), -1))

    def test_the_anticommutators(self):
        for p in range(3):
            for q in range(3):
                a, b = Record.ladders(3, [(p, 0)]), Record.ladders(3, [(q, 1)])
                self.assertEqual(a.anticommutator(b), one(3, (), (), 1) if p == q else Record.build(3, []))
                self.assertEqual(Record.from_ladders(3, [([(p, 0), (q, 1)], 1), ([(q, 1), (p, 0)], 1)]), a.anticommutator(b))

    def test_no_ladders_and_zero(self):
        self.assertEqual(Record.ladders(5, []), one(5, (), ()))
        self.assertEqual(Record.ladders(5, [], -3), one(5, (), (), -3))
        self.assertEqual(Record.ladders(5, [(2, 1), (2, 1)]), Record.build(5, []))
        self.assertEqual(Record.ladders(5, [(2, 0), (3, 1), (2, 0), (9 - 7, 1)]), Record.build(5, []))
        self.assertEqual(Record.from_ladders(5, {}), Record.build(5, []))
        self.assertEqual(Record.ladders(64, [(63, 1), (63, 0)] * 600), one(64, (63,), (63,)))

    def test_sums(self):
        products = {((0, 1), (1, 0)): 3, ((1, 0), (0, 1)): 1, (): 7}
        self.assertEqual(str(Record.from_ladders(2, products)), "7 {|} + 2 {0|1}")
        self.assertEqual(Record.from_ladders(2, products.items()), Record.from_ladders(2, products))
        self.assertEqual(Record.from_ladders(2, iter(products.items())), Record.from_ladders(2, products))
        self.assertEqual(Record.from_ladders(1, [((), 2**200), ((), -2**200 + 1)]), one(1, (), ()))

    def test_refusals(self):
        for m in (0, 65, -1):
            with Refused(self, 1, 1, 0):
                Record.ladders(m, [])
        for mode in (2, -1, 2**70):
            with Refused(self, 2, 1, 1):
                Record.from_ladders(2, [([(1, 1)], 1), ([(0, 1), (mode, 0)], 1)])
        with Refused(self, 9, 0, 0):
            Record.ladders(1, [(0, 0), (0, 1)], 2**60)
        with self.assertRaisesRegex(ValueError, "product 1, ladder 0: the action is 2"):
            Record.from_ladders(2, [((), 1), ([(0, 2)], 1)])
        holes = [(p, action) for p in range(12) for action in (0, 1)]
        self.assertEqual(len(Record.ladders(12, holes[:22])), 2048)  # of 1 - n in 11 modes
        with Refused(self, 10, 0, 0):
            Record.ladders(12, holes)

    def test_ready_made(self):
        self.assertEqual(number(3), Record.build(3, [(1, 1, 1), (2, 2, 1), (4, 4, 1)]))
        self.assertEqual(number(64, [63, 0]), Record.build(64, [(1, 1, 1), (2**63, 2**63, 1)]))
        self.assertEqual(number(3, [2, 2]), one(3, (2,), (2,)))
        self.assertEqual((number(3, 2), number(3, []), number(3, (p for p in ()))), (one(3, (2,), (2,)), 0 * number(3), 0 * number(3)))
        self.assertEqual(hopping(3, 2, 0), one(3, (2,), (0,)) + one(3, (0,), (2,)))
        self.assertEqual(hopping(3, 1, 1), one(3, (1,), (1,), 2))
        self.assertEqual(interaction(3, 2, 0), one(3, (0, 2), (0, 2), -1))
        self.assertEqual(interaction(3, 1, 1), one(3, (1,), (1,)))
        self.assertEqual([interaction(2, 0, 1).element(w, w) for w in range(4)], [0, 0, 0, 1])
        self.assertEqual(number(4).commutator(hopping(4, 0, 3)), Record.build(4, []))
        for wrong in (lambda: number(2, 2), lambda: hopping(2, 0, 2), lambda: interaction(2, 2, 0)):
            with Refused(self, 2, 1, 0):
                wrong()
        with Refused(self, 1, 1, 0):
            number(0)


class Reading(unittest.TestCase):
    def setUp(self):
        self.terms = [(1, 0, -2**60 + 9), (0, 1, 1), (1, 1, 3), (2**63, 1, -4), (2**64 - 1, 2**63, 1)]
        self.record = Record.build(64, self.terms)

    def test_indexing(self):
        for cre, ann, coeff in self.terms:
            self.assertEqual(self.record[cre, ann], coeff)
        for words in ((0, 0), (2, 1), (2**64 - 1, 1), (1, 2), (2**63, 2**63), (0, 2**64 - 1)):
            self.assertEqual(self.record[words], 0)
        self.assertEqual(Record.build(2, [])[0, 0], 0)
        self.assertEqual(Record.build(2, [(1, 1, 1)])[2**63, 2**63], 0)
        for wrong in ((0, 2**64), (-1, 0)):
            self.assertRaises(ValueError, lambda: self.record[wrong])
        for wrong in (0, (1, 2, 3), slice(1), "ab"):
            self.assertRaises(TypeError, lambda: self.record[wrong])

    def test_iteration(self):
        self.assertEqual([tuple(each) for each in self.record], self.terms)
        self.assertIn(Term(0, 1, 1), self.record)
        self.assertNotIn(Term(0, 1, 2), self.record)
        self.assertEqual(sum(abs(each.coeff) for each in self.record), self.record.weight)

    def test_copies(self):
        for again in (copy.copy(self.record), copy.deepcopy(self.record), pickle.loads(pickle.dumps(self.record))):
            self.assertEqual((again, hash(again), bytes(again)), (self.record, hash(self.record), bytes(self.record)))

    def check_columns(self, listed):
        cre, ann, coeff = self.record.columns
        self.assertEqual([listed(column) for column in (cre, ann, coeff)], [list(column) for column in zip(*self.terms)])
        for column in self.record.columns:
            with self.assertRaises((TypeError, ValueError)):
                column[0] = 7
        self.assertEqual([len(column) for column in Record.build(3, []).columns], [0, 0, 0])
        self.assertEqual(self.record.columns.cre[3], 2**63)

    def test_columns_without_numpy(self):
        with mock.patch.object(_record, "_numpy", lambda: None):
            self.check_columns(list)
            self.assertIsInstance(self.record.columns.coeff, memoryview)
            self.assertIs(self.record.columns.cre.obj, bytes(self.record))  # not a copy

    @needs_numpy
    def test_columns_of_numpy(self):
        numpy = importlib.import_module("numpy")
        self.check_columns(lambda column: column.tolist())
        self.assertEqual([column.dtype for column in self.record.columns], [numpy.uint64, numpy.uint64, numpy.int64])
        self.assertTrue(numpy.shares_memory(self.record.columns.coeff, numpy.frombuffer(self.record.data, numpy.uint8)))
        self.assertEqual(fermion.check(numpy.frombuffer(bytes(self.record), numpy.uint8)).terms, 5)

    def test_the_bytes(self):
        self.assertEqual(self.record.data, bytes(self.record))
        self.assertTrue(self.record.data.readonly)
        self.assertRaises(TypeError, lambda: self.record.data.cast("B").__setitem__(0, 1))
        self.assertIs(self.record.data.obj, bytes(self.record))
        self.assertEqual(self.record.__buffer__(0), bytes(self.record))
        self.assertIs(bytes(Record(EXAMPLE)), EXAMPLE)

    @unittest.skipIf(sys.version_info < (3, 12), "a class can have a buffer from Python 3.12 on")
    def test_the_buffer_protocol(self):
        self.assertEqual(memoryview(self.record), bytes(self.record))
        self.assertTrue(memoryview(self.record).readonly)
        self.assertEqual(memoryview(fermion.add(self.record, self.record)), bytes(2 * self.record))
        self.assertRaises(TypeError, lambda: memoryview(self.record).cast("B").__setitem__(0, 1))


class Matrices(unittest.TestCase):
    def test_any_length(self):
        lower = one(5, (), (0,), 3) + one(5, (4,), (4,), -2)
        for length in (0, 1, 3, 4, 5, 7, 8, 9, 12, 13, 16, 17, 32):
            basis = [(11 * i + 5) % 32 for i in range(length)]
            expected = [[(3 if ket == bra + 1 and ket & 1 else 0) + (-2 if bra == ket and ket & 16 else 0) for ket in basis]
                        for bra in basis]
            self.assertEqual(lower.matrix(basis), expected, length)
            if length <= 8:
                self.assertEqual(fermion.mat_ortho_projected(lower, basis), expected)
        self.assertEqual(lower.matrix(iter([1, 0])), [[0, 0], [3, 0]])

    def test_refusals_with_places_in_the_whole_basis(self):
        record = number(4)
        for numbers, basis in [
            ((12, 3, 12), [*range(12), 16, 0]), ((12, 3, 0), [2**63]), ((12, 3, 9), [0] * 9 + [16]),
            ((14, 3, 15), [*range(15), 3]), ((14, 3, 1), [7, 7]), ((14, 3, 10), [*range(10), 9, 9]),
        ]:
            with Refused(self, *numbers):
                record.matrix(basis)
        with self.assertRaises(ValueError):
            record.matrix([0, -1])

    def test_every_entry_is_asked_for_in_few_calls(self):
        for length in range(1, 40):
            tiles = list(_matrix.tiles(length))
            together = {(i, j) for tile in tiles for i in tile for j in tile}
            self.assertEqual(together, {(i, j) for i in range(length) for j in range(length)})
            self.assertLessEqual(max(map(len, tiles)), 8)
        self.assertEqual([len(list(_matrix.tiles(length))) for length in (8, 9, 16, 40)], [1, 3, 6, 45])


class Names(unittest.TestCase):
    def test_reasons(self):
        with self.assertRaises(Refusal) as caught:
            Record.build(2, [(4, 0, 1)])
        refusal = caught.exception
        self.assertIs(refusal.reason, Reason.WORD_OUTSIDE)
        self.assertEqual((refusal.number, refusal.reason, type(refusal.number)), (2, 2, int))
        self.assertEqual(set(Reason), set(fermion.SENTENCES))
        self.assertRaises(ValueError, lambda: Refusal(99, 0, 0).reason)
        again = pickle.loads(pickle.dumps(refusal))
        self.assertEqual((again.args, again.reason), ((2, 1, 0), Reason.WORD_OUTSIDE))

    def test_branches(self):
        a, b = one(3, (), (0, 1)), one(3, (0, 1), (2,))
        self.assertEqual(fermion.branches(a, b), (4, 1))
        self.assertEqual(fermion.branches(a, b).both, 5)
        self.assertEqual(fermion.branches(a, a), (0, 0))
        for operand, pair in ((1, (b"", a)), (2, (a, b""))):
            with Refused(self, 1, operand, 0):
                fermion.branches(*pair)
        with Refused(self, 6, 0, 0):
            fermion.branches(a, one(2, (), ()))
        full = 2**64 - 1
        most = [Record.build(64, [(0, full >> shift, 1)]) for shift in (0, 5, 6)]
        # 24 * (2^58 + 1) is below 2^63; 24 * (2^59 + 1) is above it
        self.assertEqual(fermion.branches(most[2], most[2].adjoint()), (2**58, 1))
        for wide in most[:2]:
            with Refused(self, 7, 0, 0):
                fermion.branches(wide, wide.adjoint())


if __name__ == "__main__":
    unittest.main()
