"""The specification's small cases, and examples worked out by hand."""
import math
import pickle
import unittest

import fermion
from common import EXAMPLE, ROW, Refused, one, term, told
from fermion import Applied, Blocked, Comparison, Record, Term, Zero, word


class Words(unittest.TestCase):
    def test_modes_make_a_word_and_back(self):
        self.assertEqual(word(), 0)
        self.assertEqual(word(63, 0, 0), 2**63 + 1)
        self.assertEqual(list(fermion.modes(2**63 + 1)), [0, 63])
        for mode in (-1, 64):
            self.assertRaises(ValueError, word, mode)
        for wrong in (-1, 2**64):
            self.assertRaises(ValueError, fermion.modes, wrong)

    def test_what_is_no_word_is_no_argument(self):
        for number in (-1, 2**64):
            self.assertRaises(ValueError, fermion.apply, 0, 0, number)
            self.assertRaises(ValueError, fermion.mat_ortho_projected, EXAMPLE, [number])
            self.assertRaises(ValueError, Record.build, 64, [(number, 0, 1)])
        self.assertRaises(TypeError, fermion.apply, 0, 0, 1.0)


class OneTerm(unittest.TestCase):
    def test_cases_9_to_13(self):
        apply = fermion.apply
        for ket in (0, 1, 2**63, 2**64 - 1):
            self.assertEqual(apply(0, 0, ket), Applied(ket, 1))
        self.assertEqual(apply(word(2), word(0), 3), Applied(6, -1))
        self.assertEqual(apply(0, word(2), 3), Zero(Blocked.MISSING, 2))
        self.assertEqual(apply(word(0), 0, 1), Zero(Blocked.OCCUPIED, 0))
        self.assertEqual(apply(word(0), word(0), 1), Applied(1, 1))
        self.assertEqual(apply(word(63), 0, 2**63 - 1), Applied(2**64 - 1, -1))
        self.assertEqual(apply(0, word(0, 1), 3), Applied(0, -1))
        self.assertEqual(apply(word(0, 1), 0, 0), Applied(3, 1))

    def test_what_blocks_a_term_is_told_in_a_sentence(self):
        missing, occupied = fermion.apply(word(0), word(63, 3), word(0)), fermion.apply(word(63, 0), word(0), word(0, 63))
        self.assertEqual((missing.reason, missing.mode, str(missing)),
                         (Blocked.MISSING, 3, "mode 3 is not occupied and cannot be annihilated"))
        self.assertEqual((occupied.reason, occupied.mode, str(occupied)),
                         (Blocked.OCCUPIED, 63, "mode 63 is still occupied and cannot be created"))
        self.assertEqual(repr(missing), "Zero(reason=<Blocked.MISSING: 1>, mode=3)")
        self.assertFalse(missing or occupied)
        self.assertTrue(fermion.apply(0, 0, 0))

    def test_zero_is_a_value(self):
        zero = Zero(Blocked.MISSING, 1)
        self.assertEqual(pickle.loads(pickle.dumps(zero)), zero)
        self.assertEqual(len({zero, Zero(Blocked.MISSING, 1), Zero(Blocked.OCCUPIED, 1), Zero(Blocked.MISSING, 0)}), 3)
        self.assertNotEqual(Applied(1, 1), zero)  # though the two numbers are the same
        with self.assertRaises(AttributeError):
            zero.mode = 2

    def test_cases_1_to_8(self):
        for left, right, rows in [
            (((0,), ()), ((0,), ()), []),
            (((0,), (0,)), ((0,), (0,)), [((0,), (0,), 1)]),
            (((), (0,)), ((0,), ()), [((), (), 1), ((0,), (0,), -1)]),
            (((), (0,)), ((1,), ()), [((1,), (0,), -1)]),
            (((), (0,)), ((1,), (2,)), [((1,), (0, 2), -1)]),
            (((0,), (2,)), ((1,), ()), [((0, 1), (2,), -1)]),
            (((1,), ()), ((0,), ()), [((0, 1), (), -1)]),
            (((), (0, 1)), ((0, 1), ()), [((), (), -1), ((1,), (1,), 1), ((0,), (0,), 1), ((0, 1), (0, 1), 1)]),
        ]:
            words = [tuple(word(*part) for part in side) for side in (left, right)]
            self.assertEqual(fermion.mul_cmpnts(*words), [term(*row) for row in rows])

    def test_rows_in_own_memory(self):
        left, right = (0, word(0)), (word(0), 0)
        out = bytearray(b"\xff" * 50)
        self.assertEqual(fermion.mul_cmpnts(left, right, out=out), [term((), (), 1), term((0,), (0,), -1)])
        self.assertEqual(out.hex(" ", -8), "0000000000000000 0000000000000000 0100000000000000 "
                         "0100000000000000 0100000000000000 ffffffffffffffff 0000")
        out = bytearray(b"\xff" * 47)
        with Refused(self, 7, 0, 0):
            fermion.mul_cmpnts(left, right, out=out)
        self.assertEqual(out, bytes(47))

    def test_memory_grows_to_the_ceiling(self):
        twelve = (1 << 12) - 1
        self.assertEqual(len(fermion.mul_cmpnts((0, twelve), (twelve, 0))), 1 << 12)
        full = 2**64 - 1
        for ceiling in (0, 1, ROW << 12):
            with Refused(self, 7, 0, 0):
                fermion.mul_cmpnts((0, full), (full, 0), ceiling=ceiling)
        self.assertEqual(len(fermion.mul_cmpnts((0, twelve), (twelve, 0), ceiling=ROW << 12)), 1 << 12)
        with Refused(self, 7, 0, 0):
            fermion.mul_cmpnts((0, twelve), (twelve, 0), ceiling=(ROW << 12) - 1)


class Records(unittest.TestCase):
    def test_the_example(self):
        record = Record(EXAMPLE)
        self.assertEqual(list(record), [term((0,), (0,), 1), term((1,), (1,), -1)])
        self.assertEqual((record.modes, len(record), record.weight), (2, 2, 2))
        self.assertEqual(Record.build(2, record), record)
        self.assertEqual(bytes(Record.build(2, reversed(list(record)))), EXAMPLE)
        self.assertEqual(fermion.check(bytearray(EXAMPLE)), (2, 2, 2))

    def test_building_joins_and_sorts(self):
        terms = [(2, 1, 5), (1, 0, 3), (2, 1, -4), (0, 1, 9), (1, 1, 2), (1, 1, -2)]
        self.assertEqual([tuple(each) for each in Record.build(2, terms)], [(1, 0, 3), (0, 1, 9), (2, 1, 1)])
        self.assertEqual(str(Record.build(2, terms)), "3 {0|} + 9 {|0} + 1 {1|0}")

    def test_building_sums_exactly(self):
        self.assertEqual(list(Record.build(1, [(1, 0, 2**200), (1, 0, 5), (1, 0, -2**200)])), [Term(1, 0, 5)])
        self.assertEqual(Record.build(1, [(1, 0, 2**60)]).weight, 2**60)

    def test_building_says_what_is_wrong(self):
        for m in (0, 65, -1, 2**70):
            with Refused(self, 1, 1, 0):
                Record.build(m, [])
        for wrong in ((4, 0, 1), (0, 4, 1), (5, 1, 0)):
            with Refused(self, 2, 1, 1):
                Record.build(2, [(2, 2, 1), wrong, (1, 1, 1)])
        with Refused(self, 10, 0, 0):
            Record.build(12, [(cre, 0, 2**60) for cre in range(2049)])
        with Refused(self, 9, 0, 0):
            Record.build(1, [(0, 0, 2**60), (1, 0, -1)])
        self.assertEqual(len(Record.build(12, [(cre, 0, 1) for cre in range(2048)])), 2048)

    def test_a_record_does_not_change(self):
        data = bytearray(EXAMPLE)
        record = Record(data)
        data[64] = 0
        self.assertEqual(bytes(record), EXAMPLE)
        self.assertEqual({record: 1}[Record(memoryview(EXAMPLE))], 1)
        self.assertEqual(pickle.loads(pickle.dumps(record)), record)
        self.assertEqual(eval(repr(record)), record)
        self.assertNotEqual(record, EXAMPLE)

    def test_what_has_no_bytes_is_no_record(self):
        self.assertRaises(TypeError, Record, 32)
        self.assertRaises(TypeError, fermion.check, None)

    def test_every_refusal_of_a_record(self):
        def with_entry(at, number):
            return EXAMPLE[:at] + number.to_bytes(8, "little") + EXAMPLE[at + 8:]

        for numbers, data in [
            ((1, 1, 0), EXAMPLE[:-1]), ((1, 1, 0), b""), ((2, 1, 1), with_entry(56, 4)), ((3, 1, 1), with_entry(40, 0)),
            ((4, 1, 0), with_entry(64, 0)), ((5, 1, 0), with_entry(64, 2**60)), ((5, 1, 0), with_entry(64, 2**63)),
        ]:
            for call in (Record, fermion.check, fermion.adjoint, fermion.is_hermitian, fermion.max_n_body,
                         fermion.conserves_particle_number, fermion.active_modes):
                with Refused(self, *numbers):
                    call(data)
            for call in (fermion.add, fermion.sub, fermion.mul, fermion.commutator, fermion.anticommutator,
                         fermion.compare):
                with Refused(self, *numbers):
                    call(data, b"")
                with Refused(self, numbers[0], 2, numbers[2]):
                    call(EXAMPLE, data)
            self.assertEqual(bytes(fermion.block(data, 1)), b"")
            report = fermion.Report()  # which goes on
            self.assertEqual(report.add(data).refusal.args, numbers)
            self.assertEqual(report.numbers, (0, 1, *[0] * 199))


class Operators(unittest.TestCase):
    def test_case_14(self):
        a, b = one(2, (0,), (1,)), one(2, (1,), (0,))
        self.assertEqual(told(fermion.commutator(a, b)), (Record(EXAMPLE), 4))
        work, out = bytearray(b"\xff" * 96), bytearray(b"\xff" * 83)
        self.assertEqual(told(fermion.commutator(a, b, work=work, out=out)), (Record(EXAMPLE), 4))
        self.assertEqual((work, out), (bytes(96), EXAMPLE + bytes(3)))
        for number, lengths in ((7, (95, 80)), (11, (96, 79)), (7, (0, 0))):
            work, out = (bytearray(b"\xff" * length) for length in lengths)
            with Refused(self, number, 0, 0):
                fermion.commutator(a, b, work=work, out=out)
            self.assertEqual((work, out), tuple(map(bytes, lengths)))
        self.assertEqual([fermion.element(EXAMPLE, w, w) for w in (1, 2, 3)], [1, -1, 0])

    def test_case_15(self):
        some, none = one(2, (), ()), Record.build(2, [])
        self.assertEqual(fermion.compare(some, none), Comparison(False, 0, 0))
        self.assertEqual(fermion.compare(none, some), Comparison(False, 0, 0))
        self.assertEqual(fermion.compare(some, some), Comparison(True))

    def test_sums_and_products(self):
        number, hop = one(2, (0,), (0,), 3), one(2, (0,), (1,), 2)
        self.assertEqual(str(fermion.add(number, hop)), "3 {0|0} + 2 {0|1}")
        self.assertEqual(str(fermion.sub(number, hop)), "3 {0|0} - 2 {0|1}")
        self.assertEqual(str(fermion.mul(number, hop).record), "6 {0|1}")
        self.assertEqual(str(fermion.mul(hop, number).record), "0")
        self.assertEqual(str(fermion.commutator(hop, number).record), "-6 {0|1}")
        self.assertEqual(str(fermion.anticommutator(hop, number).record), "6 {0|1}")

    def test_refusals_of_two_records(self):
        calls = fermion.add, fermion.sub, fermion.mul, fermion.commutator, fermion.anticommutator, fermion.compare
        for call in calls:
            with Refused(self, 6, 0, 0):
                call(one(2, (), ()), one(3, (), ()))
        heavy, light = one(2, (), (), 2**60), one(2, (), ())
        for call in calls[2:5]:
            with Refused(self, 8, 0, 0):
                call(heavy, fermion.add(light, light))
        with Refused(self, 9, 0, 0):
            fermion.add(heavy, light)
        with Refused(self, 9, 0, 0):
            fermion.anticommutator(heavy, light)
        many = [Record.build(12, [(cre + start, 0, 1) for cre in range(1025)]) for start in (0, 1025)]
        with Refused(self, 10, 0, 0):
            fermion.add(*many)
        self.assertEqual(len(fermion.add(many[0], many[0])), 1025)

    def test_work_as_the_branches_need_it_up_to_the_ceiling(self):
        eleven = (1 << 11) - 1
        a, b = Record.build(11, [(0, eleven, 1)]), Record.build(11, [(eleven, 0, 1)])
        product = fermion.mul(a, b)
        self.assertEqual((product.branches, len(product.record)), (2048, 2048))
        self.assertEqual(fermion.mul(a, b, ceiling=ROW << 11), product)
        with Refused(self, 7, 0, 0):
            fermion.mul(a, b, ceiling=(ROW << 11) - 1)
        squares = fermion.mul(product.record, one(11, (), ())).record
        self.assertEqual(squares, product.record)
        wide = [Record.build(13, [(0, 2**13 - 1, 1)]), Record.build(13, [(2**13 - 1, 0, 1)])]
        with Refused(self, 10, 0, 0):  # 8,192 branches
            fermion.mul(*wide)

    def test_own_memory_is_not_lent_twice(self):
        shared, a = bytearray(200), one(1, (), ())
        self.assertRaises(ValueError, fermion.mul, a, a, work=shared, out=shared)
        self.assertRaises(ValueError, fermion.mul, a, a, work=memoryview(shared)[:100], out=memoryview(shared)[99:])
        halves = memoryview(shared)[:100], memoryview(shared)[100:]
        self.assertEqual(fermion.mul(a, a, work=halves[0], out=halves[1]).record, a)
        self.assertRaises(TypeError, fermion.add, a, a, out=bytes(100))

    def test_adjoints(self):
        self.assertEqual(fermion.adjoint(one(2, (0, 1), ())), one(2, (), (0, 1), -1))
        out = bytearray(b"\xff" * 60)
        self.assertEqual(str(fermion.adjoint(one(2, (0,), (1,), 5), out=out)), "5 {1|0}")
        self.assertEqual(out, bytes(one(2, (1,), (0,), 5)) + bytes(4))
        with Refused(self, 11, 0, 0):
            fermion.adjoint(one(2, (0,), (1,)), out=bytearray(55))
        self.assertTrue(fermion.is_hermitian(EXAMPLE))
        self.assertFalse(fermion.is_hermitian(one(2, (0,), (1,))))

    def test_figures(self):
        mixed = Record.build(64, [(word(0, 1), 0, 1), (word(63), word(0, 2), 1)])
        self.assertFalse(fermion.conserves_particle_number(mixed))
        self.assertTrue(fermion.conserves_particle_number(EXAMPLE))
        self.assertEqual((fermion.max_n_body(mixed), fermion.max_n_body(Record.build(1, []))), (2, 0))
        self.assertEqual(fermion.active_modes(mixed), word(0, 1, 2, 63))

    def test_a_block_is_a_part_of_the_bytes_given(self):
        record = Record.build(2, [(1, 2, 5), (2, 2, 7), (0, 1, 1)])
        data = bytearray(bytes(record))
        part = fermion.block(data, 2)
        self.assertEqual(bytes(part), bytes(fermion.block(record, 2)))
        data[64] = 9  # the part shows what the caller does with these bytes
        self.assertEqual(part[0], 9)
        self.assertEqual((record.creations(2), record.creations(3), record.creations(2**63)), ([1, 2], [], []))


class Elements(unittest.TestCase):
    def test_exact_elements(self):
        self.assertEqual(fermion.element(one(2, (1,), ()), 3, 1), -1)
        self.assertEqual(fermion.element(one(2, (), (), -2**60), 3, 3), -2**60)
        with Refused(self, 12, 3, 0):
            fermion.element(EXAMPLE, 4, 4)
        with Refused(self, 12, 4, 0):
            fermion.element(EXAMPLE, 3, 4)

    def test_the_matrix(self):
        self.assertEqual(fermion.mat_ortho_projected(one(2, (0,), ()), [0, 1]), [[0, 0], [1, 0]])
        self.assertEqual(fermion.mat_ortho_projected(EXAMPLE, []), [])
        eight = fermion.mat_ortho_projected(one(3, (), (), -4), range(8))
        self.assertEqual(eight, [[-4 * (i == j) for j in range(8)] for i in range(8)])
        for numbers, basis in [((14, 3, 0), [4] * 9), ((12, 3, 1), [0, 4, 0]), ((14, 3, 3), [0, 1, 2, 1, 0])]:
            with Refused(self, *numbers):
                fermion.mat_ortho_projected(EXAMPLE, basis)

    def test_float_elements(self):
        real, huge = fermion.mat_elem_real, 1.5e308
        self.assertEqual(real(1, [0, 1, 0], [0, 1, 0], [1e16, 5.0, 1.0], 0, 0), 1e16)
        self.assertEqual(real(64, [], [], [], 0, 0), 0.0)
        self.assertEqual(math.copysign(1, real(2, [0], [3], [0.0], 0, 3)), 1)
        self.assertEqual(fermion.mat_elem_complex(2, [0], [3], [1 - 2j], 0, 3), -1 + 2j)
        for numbers, args in [
            ((1, 1, 0), (0, [], [], [], 0, 0)), ((1, 1, 0), (65, [], [], [], 0, 0)),
            ((1, 1, 0), (1, [0], [0, 0], [1.0], 0, 0)), ((1, 1, 0), (1, [0] * 2049, [0] * 2049, [1.0] * 2049, 0, 0)),
            ((2, 1, 1), (1, [0, 2], [0, 0], [1.0, math.nan], 0, 0)), ((13, 1, 0), (1, [0], [0], [math.inf], 2, 0)),
            ((12, 3, 0), (1, [0], [0], [1.0], 2, 2)), ((12, 4, 0), (1, [0], [0], [1.0], 1, 2)),
            ((13, 1, 2), (1, [0, 1, 0], [0, 1, 0], [huge] * 3, 0, 0)),
        ]:
            with Refused(self, *numbers):
                real(*args)
        with Refused(self, 13, 1, 0):
            fermion.mat_elem_complex(1, [0], [0], [complex(0, math.nan)], 0, 0)


if __name__ == "__main__":
    unittest.main()
