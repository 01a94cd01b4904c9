"""Figures for a batch: reports worked out by hand, full ones and bad ones, orders, stored reports, and memory of the caller's."""
import array
import copy
import ctypes
import importlib
import json
import math
import mmap
import pickle
import random
import threading
import unittest

import fermion
from common import EXAMPLE, Refused, figures, needs_numpy, one, term
from fermion import Counted, Reason, Record, Refusal, Report, Share, hopping, interaction, number

SEED = 20261116
#: {s|s} for each set s of 11 modes: 2,048 terms, math.comb(11, r) of them of rank r, and a weight of 2^60.
HEAVIEST = Record.build(11, [(modes, modes, 2**49) for modes in range(2048)])
NONE = Record.build(1, [])  # a record without terms: it changes nothing but the accepted records


def fresh():
    return array.array("Q", [0] * 201)


def with_number(at, value):
    """A fresh report with one number changed."""
    numbers = fresh()
    numbers[at] = value
    return numbers


class Examples(unittest.TestCase):
    def test_a_fresh_report(self):
        report = Report()
        self.assertEqual((report.accepted, report.refused, report.terms, report.weight, report.largest), (0,) * 5)
        self.assertEqual(report.ranks, (Share(0, 0),) * 65)
        self.assertEqual((report.numbers, bytes(report)), ((0,) * 201, bytes(1608)))
        self.assertEqual(str(report), "0 records accepted, 0 refused\n0 terms of weight 0, the most in one record 0")
        self.assertEqual(report, Report.of([]))

    def test_a_batch_by_hand(self):
        report = Report()
        self.assertEqual(report.add(EXAMPLE), Counted(True))  # {0|0} - {1|1}
        self.assertEqual(report.numbers, (1, 0, 2, 0, 2, 2, *(0, 0, 0), *(2, 0, 2), *[0] * 189))
        report.add(one(4, (0, 1), (2, 3), -5) + one(4, (0, 1), (0, 1), 2) + 9)
        report.add(one(64, (63,), (0,), 3))
        report.add(Record.build(64, [(2**64 - 1, 2**64 - 1, -1)]))
        self.assertEqual((report.accepted, report.refused, report.terms, report.weight, report.largest), (4, 0, 7, 22, 16))
        shares = {0: (1, 9), 1: (3, 5), 2: (2, 7), 64: (1, 1)}
        self.assertEqual(report.ranks, tuple(shares.get(rank, (0, 0)) for rank in range(65)))
        self.assertEqual(str(report), "4 records accepted, 0 refused\n7 terms of weight 22, the most in one record 16\n"
                         "rank 0: 1 term of weight 9\nrank 1: 3 terms of weight 5\nrank 2: 2 terms of weight 7\n"
                         "rank 64: 1 term of weight 1")
        self.assertEqual(repr(report), "Report(accepted=4, refused=0, terms=7, weight=22, largest=16, "
                         "ranks={0: (1, 9), 1: (3, 5), 2: (2, 7), 64: (1, 1)})")

    def test_odd_terms_by_hand(self):
        every = range(64)
        terms = [((), (), 0), ((0,), (), 1), ((), (5,), 1), ((0, 1), (2,), 2), ((2,), (0, 1), 2), ((0, 1, 2), (), 3),
                 ((), (0, 1, 2, 3, 4), 5), (every, (), 64), ((0,), every, 64), (every[1:], every, 64), (every[1:], (), 63)]
        for cre, ann, rank in terms:
            record = one(64, cre, ann, -3)
            self.assertEqual(record.max_n_body(), rank)
            self.assertEqual({r: share for r, share in enumerate(Report.of([record]).ranks) if any(share)}, {rank: (1, 3)})
        self.assertEqual(str(Report.of(one(64, cre, ann, -3) for cre, ann, _ in terms)).split("\n")[2:], [
            "rank 0: 1 term of weight 3", "rank 1: 2 terms of weight 6", "rank 2: 2 terms of weight 6",
            "rank 3: 1 term of weight 3", "rank 5: 1 term of weight 3", "rank 63: 1 term of weight 3",
            "rank 64: 3 terms of weight 9"])

    def test_the_largest_rank_is_that_of_max_n_body(self):
        rng = random.Random(SEED)
        for _ in range(100):
            record = Record.build(64, [(rng.getrandbits(64) & rng.getrandbits(64), rng.getrandbits(64), 1) for _ in range(3)])
            shares = Report.of([record]).ranks
            self.assertEqual(max(rank for rank, share in enumerate(shares) if share.terms), record.max_n_body())

    def test_a_refused_record_only_adds_one_to_refused(self):
        report = Report.of([EXAMPLE, hopping(2, 0, 1)])
        before = report.numbers
        outside = EXAMPLE[:56] + (4).to_bytes(8, "little") + EXAMPLE[64:]
        for count, (data, numbers) in enumerate([(b"", (1, 1, 0)), (EXAMPLE[:-1], (1, 1, 0)), (outside, (2, 1, 1))], 1):
            answer = report.add(data)
            self.assertEqual((answer.accepted, bool(answer)), (False, False))
            self.assertIsInstance(answer.refusal, Refusal)
            self.assertEqual((answer.refusal.args, answer.refusal.reason), (numbers, numbers[0]))
            self.assertEqual(report.numbers, (before[0], count, *before[2:]))
        answer = report.add(NONE)
        self.assertEqual((answer, bool(answer)), (Counted(True, None), True))
        self.assertEqual(report.numbers, (before[0] + 1, 3, *before[2:]))

    def test_whatever_has_a_record_is_counted(self):
        product = fermion.commutator(one(2, (0,), (1,)), one(2, (1,), (0,)))
        self.assertEqual(Report.of([product]), Report.of([EXAMPLE]))
        self.assertEqual(Report.of(iter((bytearray(EXAMPLE), memoryview(EXAMPLE)))), Report.of([Record(EXAMPLE)] * 2))
        for wrong in (EXAMPLE, Record(EXAMPLE), [None], ["text"], 5):  # one record is not a batch of them
            self.assertRaises(TypeError, Report.of, wrong)

    def test_weights_carry(self):
        most = one(1, (0,), (0,), -2**60)
        report = Report.of([most, one(1, (), (), 2**60 - 1)])
        self.assertEqual((report.weight, report.largest), (2**61 - 1, 2**60))
        self.assertEqual(report.numbers[:12], (2, 0, 2, 1, 2**60 - 1, 2**60, 1, 0, 2**60 - 1, 1, 1, 0))
        report.add(one(1, (0,), (0,)))
        self.assertEqual((report.numbers[3:5], report.numbers[9:12]), ((2, 0), (2, 1, 1)))
        self.assertEqual((report.weight, report.ranks[1]), (2**61, Share(2, 2**60 + 1)))


class Limits(unittest.TestCase):
    def test_1024_of_the_heaviest(self):
        self.assertEqual((len(HEAVIEST), HEAVIEST.weight), (2048, 2**60))
        report = Report.of([HEAVIEST] * 1024)
        self.assertEqual((report.accepted, report.terms, report.weight, report.largest), (1024, 2**21, 2**70, 2**60))
        self.assertEqual(report.numbers[2:5], (2**21, 1024, 0))
        for rank, share in enumerate(report.ranks):
            terms = 1024 * math.comb(11, rank)
            self.assertEqual(share, (terms, terms * 2**49))
        self.check_that_it_is_full(report)

    def check_that_it_is_full(self, report):
        before = report.numbers
        for data in (HEAVIEST, NONE, b"", EXAMPLE):
            with Refused(self, 15, 0, 0):
                report.add(data)
            own = array.array("Q", before)
            with Refused(self, 15, 0, 0):
                fermion.report_add(data, own)
            self.assertEqual((report.numbers, tuple(own)), (before, before))

    def test_refused_records_are_among_the_1024(self):
        for accepted in (0, 1, 1000, 1023):
            report = Report.of([EXAMPLE] * accepted + [b""] * (1023 - accepted))
            report.add(b"no record")
            self.assertEqual((report.accepted, report.refused), (accepted, 1024 - accepted))
            self.check_that_it_is_full(report)
        with Refused(self, 15, 0, 0):
            Report.of(EXAMPLE for _ in range(1025))
        self.assertEqual(fermion.MAX_REPORTED, 1024)

    def test_numbers_above_their_limits(self):
        for at in (2, *range(6, 201, 3)):  # the total, and every rank
            for part, limit in ((at, 2**21), (at + 1, 1024), (at + 2, 2**60 - 1)):
                for value in (limit + 1, 2**64 - 1):
                    own, report = with_number(part, value), Report(with_number(part, value))
                    for data in (EXAMPLE, b""):
                        with Refused(self, 15, 0, 0):
                            fermion.report_add(data, own)
                        with Refused(self, 15, 0, 0):
                            report.add(data)
                    self.assertEqual((own, report.numbers), (with_number(part, value), tuple(with_number(part, value))))
                expected = with_number(part, limit)
                expected[0] += 1
                own = with_number(part, limit)
                self.assertTrue(fermion.report_add(NONE, own).accepted)
                self.assertEqual(own, expected)

    def test_counts_that_no_report_has(self):
        for accepted, refused in ((1024, 0), (0, 1024), (1025, 0), (2**64 - 1, 1), (1, 2**64 - 1), (2**63, 2**63), (600, 424)):
            numbers = with_number(0, accepted)
            numbers[1] = refused
            self.check_that_it_is_full(Report(numbers))
        for accepted, refused in ((1023, 0), (0, 1023), (600, 423)):
            report = Report([accepted, refused] + [0] * 199)
            self.assertTrue(report.add(EXAMPLE))
            self.assertEqual((report.accepted, report.refused), (accepted + 1, refused))

    def test_the_reason(self):
        with self.assertRaises(Refusal) as caught:
            Report([1024] + [0] * 200).add(EXAMPLE)
        self.assertIs(caught.exception.reason, Reason.BAD_REPORT)
        self.assertEqual(str(caught.exception), "refused 15 (operand 0, place 0): the report counts 1,024 records, or one of its "
                         "numbers is above its limit")


class Batches(unittest.TestCase):
    def setUp(self):
        self.rng = random.Random(f"{SEED} {self.id()}")

    def drawn(self):
        """A record's bytes and its terms, and None for what is refused."""
        if self.rng.random() < 0.2:
            return self.rng.choice((b"", EXAMPLE[:-1], EXAMPLE + b"0", bytes(32))), None
        words = lambda: sum(1 << p for p in range(64) if self.rng.random() < self.rng.choice((0, 0.05, 0.5, 1)))
        coeff = lambda: self.rng.choice((1, -1)) * self.rng.randint(1, 2**self.rng.choice((1, 20, 57)))
        record = Record.build(64, [(words(), words(), coeff()) for _ in range(self.rng.randint(0, 7))])
        return bytes(record), list(record)

    def test_the_order_does_not_matter(self):
        batch = [self.drawn() for _ in range(200)]
        expected = figures([terms for _, terms in batch])
        self.assertGreater(expected[1], 10)  # refused
        self.assertGreater(expected[3], 1)  # a high
        for _ in range(10):
            self.rng.shuffle(batch)
            self.assertEqual(list(Report.of(data for data, _ in batch).numbers), expected)
        self.assertEqual(list(Report.of(data for data, _ in sorted(batch, key=lambda each: each[0])).numbers), expected)

    def test_every_step(self):
        report, own, known = Report(), fresh(), []
        for _ in range(100):
            data, terms = self.drawn()
            known.append(terms)
            for answer in (report.add(data), fermion.report_add(data, own)):
                self.assertEqual(answer.accepted, terms is not None)
            self.assertEqual((list(report.numbers), own.tolist()), (figures(known),) * 2)

    def test_several_threads_count_into_one_report(self):
        report, batch = Report(), [EXAMPLE, b"", HEAVIEST, hopping(2, 0, 1)] * 32
        seen = []

        def count():
            for data in batch:
                report.add(data)
                numbers = report.numbers
                seen.append(sum(numbers[6::3]) == numbers[2])  # all of a record, or nothing
        threads = [threading.Thread(target=count) for _ in range(8)]
        for thread in threads:
            thread.start()
        for thread in threads:
            thread.join()
        self.assertEqual((len(seen), all(seen)), (1024, True))
        self.assertEqual(list(report.numbers), figures([list(Record(EXAMPLE)), None, list(HEAVIEST), list(hopping(2, 0, 1))] * 256))


class Stored(unittest.TestCase):
    def setUp(self):
        self.report = Report.of([HEAVIEST, one(64, (63,), (0,), -2**60), b"", EXAMPLE])

    def test_stored_and_loaded(self):
        report = self.report
        for again in (Report(report.numbers), Report(list(report.numbers)), Report(iter(report.numbers)),
                      Report(array.array("Q", report.numbers)), Report.from_bytes(bytes(report)),
                      Report.from_bytes(bytearray(bytes(report))), Report.from_bytes(array.array("Q", report.numbers)),
                      Report(json.loads(json.dumps(report.numbers))), pickle.loads(pickle.dumps(report)), copy.copy(report),
                      copy.deepcopy(report)):
            self.assertEqual((type(again), again.numbers, bytes(again)), (Report, report.numbers, bytes(report)))
            self.assertTrue(again == report and not again != report)
            again.add(EXAMPLE)  # which is of no account for the first
            self.assertNotEqual(again, report)
            self.assertEqual((again.accepted, report.accepted), (4, 3))

    def test_the_bytes(self):
        self.assertEqual(bytes(self.report), b"".join(each.to_bytes(8, "little") for each in self.report.numbers))
        self.assertEqual((bytes(self.report)[:16].hex(), len(bytes(self.report))), ("03000000000000000100000000000000", 1608))

    def test_a_batch_in_two_parts(self):
        batch = [EXAMPLE, b"", HEAVIEST, number(4), interaction(3, 0, 2), bytes(40)]
        for cut in range(7):
            later = Report.from_bytes(bytes(Report.of(batch[:cut])))
            for data in batch[cut:]:
                later.add(data)
            self.assertEqual(later, Report.of(batch))

    def test_what_is_no_report(self):
        numbers = list(self.report.numbers)
        for wrong in ([], numbers[:-1], numbers + [0], bytes(self.report)):
            with self.assertRaisesRegex(ValueError, f"a report has 201 numbers, not {len(wrong)}"):
                Report(wrong)
        for wrong in (b"", bytes(1607), bytes(1609), array.array("Q", [0] * 200)):
            with self.assertRaisesRegex(ValueError, "a report is stored as 1608 bytes, not"):
                Report.from_bytes(wrong)
        for wrong in (-1, 2**64):
            with self.assertRaisesRegex(ValueError, "number 200 of the report is"):
                Report(numbers[:-1] + [wrong])
        with self.assertRaisesRegex(TypeError, "number 1 of the report is 1.0, not a whole number"):
            Report([0, 1.0] + [0] * 199)
        for wrong in (5, self.report):
            self.assertRaises(TypeError, Report, wrong)
            self.assertRaises(TypeError, Report.from_bytes, wrong)

    def test_it_is_equal_to_reports_alone(self):
        self.assertNotEqual(self.report, self.report.numbers)
        self.assertNotEqual(self.report, bytes(self.report))
        self.assertRaises(TypeError, hash, self.report)  # it changes
        for name in ("accepted", "weight", "ranks", "numbers"):
            self.assertRaises(AttributeError, setattr, self.report, name, 0)


class Memory(unittest.TestCase):
    def test_every_kind_is_read_and_changed(self):
        expected = figures([list(Record(EXAMPLE)), None])
        for own in (fresh(), array.array("L", [0] * 201), bytearray(1608), mmap.mmap(-1, 1608), (ctypes.c_uint64 * 201)(),
                    ctypes.create_string_buffer(1608), memoryview(fresh()), memoryview(bytearray(1632))[8:-16]):
            for data, accepted in ((EXAMPLE, True), (b"no record", False)):
                self.assertEqual(fermion.report_add(data, own).accepted, accepted)
            self.assertEqual(bytes(own), bytes(Report(expected)), type(own))

    @needs_numpy
    def test_arrays_of_numpy(self):
        numpy = importlib.import_module("numpy")
        for own in (numpy.zeros(201, numpy.uint64), numpy.zeros((3, 67), numpy.uint64), numpy.zeros(1608, numpy.uint8)):
            self.assertTrue(fermion.report_add(EXAMPLE, own))
            self.assertEqual(own.tobytes(), bytes(Report.of([EXAMPLE])))
        self.assertEqual(Report(numpy.array(figures([[term((0,), (0,))]]), numpy.uint64)), Report.of([one(1, (0,), (0,))]))
        own = numpy.zeros(201, numpy.uint64)
        own.flags.writeable = False
        for wrong in (own, numpy.zeros(201), numpy.zeros(402, numpy.uint64)[::2], numpy.zeros(201, ">u8")):
            self.assertRaises(TypeError, fermion.report_add, EXAMPLE, wrong)

    def test_memory_of_another_size(self):
        for wrong in (array.array("Q"), array.array("Q", [0] * 200), array.array("Q", [0] * 202), bytearray(1607), bytearray(201)):
            before = bytes(wrong)
            with self.assertRaisesRegex(ValueError, f"201 numbers of 64 bits has 1608 bytes, not {len(before)}"):
                fermion.report_add(EXAMPLE, wrong)
            self.assertEqual(bytes(wrong), before)

    def test_what_cannot_be_changed_is_no_memory_for_a_report(self):
        for wrong in (bytes(1608), memoryview(bytes(1608)), None, 201, "text", [0] * 201, Report(), object(),
                      array.array("d", [0] * 201), array.array("q", [0] * 201), array.array("I", [0] * 402),
                      memoryview(array.array("Q", [0] * 402))[::2]):
            self.assertRaises(TypeError, fermion.report_add, EXAMPLE, wrong)

    def test_memory_at_another_address(self):
        room = bytearray(1616)
        start = ctypes.addressof(ctypes.c_char.from_buffer(room)) % 8
        for shift in range(8):
            part = memoryview(room)[shift:shift + 1608]
            if (start + shift) % 8:
                with self.assertRaisesRegex(ValueError, "an address that 8 divides"):
                    fermion.report_add(EXAMPLE, part)
                self.assertEqual(bytes(room), bytes(1616))

    def test_a_report_overlaps_no_record(self):
        shared = bytearray(1608 + 80)
        shared[1608:] = EXAMPLE
        before, whole = bytes(shared), memoryview(shared)
        for data, own in ((whole[:80], whole[:1608]), (whole[1528:1608], whole[:1608]), (whole[1601:1681], whole[:1608]),
                          (whole[1608:], whole[80:]), (shared, whole[80:])):
            with self.assertRaisesRegex(ValueError, "overlaps"):
                fermion.report_add(data, own)
        self.assertEqual(bytes(shared), before)
        self.assertTrue(fermion.report_add(whole[1608:], whole[:1608]))  # side by side
        self.assertEqual(bytes(shared), bytes(Report.of([EXAMPLE])) + EXAMPLE)

    def test_memory_is_held_no_longer_than_the_call(self):
        data, own = bytearray(EXAMPLE), bytearray(1608)
        for call in (lambda: fermion.report_add(data, own), lambda: fermion.report_add(own, own),
                     lambda: fermion.report_add(5, own), lambda: fermion.report_add(data, memoryview(own)[8:])):
            try:
                call()
            except (TypeError, ValueError):
                pass
            data.append(0)  # a bytearray that is held cannot grow
            own.append(0)
            del data[-1], own[-1]


if __name__ == "__main__":
    unittest.main()
