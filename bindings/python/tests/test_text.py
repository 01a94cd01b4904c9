"""Ladder text in and out: by hand, drawn against tests/ladder_text.py of the repository, and the memory that it takes."""
import mmap
import random
import sys
import tracemalloc
import unittest
from array import array
from pathlib import Path
from unittest import mock

import fermion
from common import EXAMPLE, Refused, one
from fermion import Reason, Record, Refusal, Term, word
from fermion import _face, _text

sys.path.insert(0, str(Path(__file__).resolve().parents[3] / "tests"))
import draws  # noqa: E402
import ladder_text  # noqa: E402
import records  # noqa: E402

SEED = 20270105
CASES = 400
TEXT = "1 0^ 0_\n-1 1^ 1_\n"
PAIRS = " 0_ 0^ 1_ 1^ 2_ 2^ 3_ 3^ 4_ 4^ 5_ 5^\n"  # 12 ladders: 4,096 parts, 64 terms


class Examples(unittest.TestCase):
    def test_case_14(self):
        self.assertEqual(Record(EXAMPLE).text(), TEXT)
        self.assertEqual(bytes(Record.parse(2, TEXT)), EXAMPLE)
        self.assertEqual(fermion.export(EXAMPLE), TEXT)
        hop, back = Record.parse(2, "1 0^ 1_\n"), Record.parse(2, "1 1^ 0_\n")
        self.assertEqual(hop.commutator(back).text(), TEXT)

    def test_lines_by_hand(self):
        for m, text, terms in [
            (1, "", []), (3, "0\n-0 2^\n", []), (1, "-5\n", [(0, 0, -5)]), (4, "1 3^ 0^\n", [(9, 0, -1)]), (4, "1 3^ 3^\n", []),
            (4, "1 3_ 3^ 3_\n", [(0, 8, 1)]), (1, "1 0_ 0^\n", [(0, 0, 1), (1, 1, -1)]),
            (64, "-7 63^ 63_\n", [(2**63, 2**63, -7)]), (2, "1 1^ 1_\n1 0^ 0_\n-1 1^ 1_\n", [(1, 1, 1)]),
            (1, f"{2**60}\n", [(0, 0, 2**60)]),
        ]:
            self.assertEqual(list(Record.parse(m, text)), [Term(*term) for term in terms], text)

    def test_the_words_for_people_stay(self):
        record = Record.parse(4, "12 1^ 2_\n")
        self.assertEqual((str(record), record.text()), ("12 {1|2}", "12 1^ 2_\n"))
        self.assertEqual((str(Record.build(4, [])), Record.build(4, []).text()), ("0", ""))

    def test_ladders_as_text_and_as_tuples(self):
        tuples = {((3, 1), (0, 0)): 2, ((0, 0), (0, 1)): -3, ((1, 1), (1, 1)): 4, (): 5}
        self.assertEqual(Record.parse(4, "2 3^ 0_\n-3 0_ 0^\n4 1^ 1^\n5\n"), Record.from_ladders(4, tuples))

    def test_what_a_text_may_be_handed_over_as(self):
        data = TEXT.encode()
        kinds = [TEXT, data, bytearray(data), memoryview(data), memoryview(b"x" + data)[1:], array("B", data)]
        mapped = mmap.mmap(-1, len(data))
        mapped.write(data)
        for text in (*kinds, mapped):
            self.assertEqual(bytes(Record.parse(2, text)), EXAMPLE, type(text))
            self.assertEqual(bytes(fermion.import_(2, text)), EXAMPLE, type(text))
        mapped.close()
        for empty in ("", b"", bytearray(), memoryview(b""), array("B")):
            self.assertEqual(len(Record.parse(2, empty)), 0)
        for wrong in (5, None, ["1\n"], object(), memoryview(data)[::2]):
            self.assertRaises(TypeError, Record.parse, 2, wrong)
            self.assertRaises(TypeError, fermion.import_, 2, wrong)


class Refusals(unittest.TestCase):
    def test_each_with_its_line(self):
        for numbers, m, text in [
            ((1, 1, 0), 0, "x"), ((1, 1, 0), 65, ""), ((16, 0, 0), 2, "1"), ((16, 0, 1), 2, "1\n\n"),
            ((16, 0, 2), 2, "1\n1\n+1 9^\n"), ((2, 1, 1), 2, "1\n1 0^ 2_\n01\n"), ((2, 1, 0), 64, f"1 {10**40}^\n"),
            ((17, 0, 1), 2, "1\n1" + " 0^" * 13 + "\n"),
            ((8, 0, 0), 2, f"{2**59 + 1} 0^\n"), ((8, 0, 0), 2, "9" * 10000 + "\n"), ((8, 0, 0), 2, f"{2**60}\n-1\n"),
        ]:
            for call in (Record.parse, fermion.import_):
                with Refused(self, *numbers):
                    call(m, text)
        with Refused(self, 10, 0, 0):
            Record.parse(12, "".join(f"1{''.join(f' {p}_' for p in fermion.modes(ann))}\n" for ann in range(2049)))

    def test_in_words(self):
        for text, sentence in [
            ("1\n1 0 ^\n", "refused 16 (operand 0, place 1): a line breaks the grammar of ladder text"),
            ("1" + " 0^" * 13 + "\n", "refused 17 (operand 0, place 0): a line has more than 12 ladders"),
            ("1 5^\n", "refused 2 (operand 1, place 0): a word of a term, or a mode of a line, is outside the modes"),
        ]:
            with self.assertRaises(Refusal) as caught:
                Record.parse(5, text)
            self.assertEqual(str(caught.exception), sentence)
        self.assertEqual((Reason.BAD_LINE, Reason.TOO_MANY_LADDERS), (16, 17))

    def test_letters_of_other_scripts_break_the_grammar(self):
        for line in ("1\N{NO-BREAK SPACE}0^", "\N{MINUS SIGN}1", "\N{ARABIC-INDIC DIGIT ONE}", "1 \N{SUPERSCRIPT TWO}^", "\ud800",
                     "1\r", "\N{BYTE ORDER MARK}1"):
            with Refused(self, 16, 0, 1):
                Record.parse(2, f"1\n{line}\n1\n")

    def test_mode_counts(self):
        for m in (-1, 2**64, 2**70):
            with Refused(self, 1, 1, 0):
                Record.parse(m, "1\n")
            self.assertRaises(ValueError, fermion.import_, m, "1\n")
        self.assertRaises(TypeError, Record.parse, 2.0, "1\n")

    def test_of_a_record(self):
        with Refused(self, 1, 1, 0):
            fermion.export(EXAMPLE[:-1])
        with Refused(self, 4, 1, 1):
            fermion.export(EXAMPLE[:72] + bytes(8))
        with Refused(self, 11, 0, 0):
            fermion.export(EXAMPLE, out=bytearray(16))


def outcome(call, *args, **lent):
    try:
        return call(*args, **lent)
    except Refusal as refusal:
        return refusal.args


class Drawn(unittest.TestCase):
    def setUp(self):
        self.rng = random.Random(f"{SEED} {self.id()}")

    def line(self, m):
        near = self.rng.sample(range(m), min(m, 4))
        ladders = (f" {self.rng.choice(near)}{self.rng.choice('^_')}" for _ in range(self.rng.choice((0, 1, 2, 3, 4, 4, 8))))
        return f"{self.rng.randint(-9, 9)}{''.join(ladders)}\n".encode()

    def text(self, m):
        """Up to 12 lines; of four texts one has a byte changed."""
        text = b"".join(self.line(m) for _ in range(self.rng.randrange(13)))
        if text and self.rng.random() < 0.25:
            at = self.rng.randrange(len(text))
            text = text[:at] + bytes([self.rng.choice(b"0123456789 ^_-\n\r+x")]) + text[at + 1:]
        return text

    def test_texts(self):
        met = set()
        for _ in range(CASES):
            m = self.rng.choice((1, 3, 64))
            text = self.text(m)
            answer = ladder_text.import_(m, text, 1 << 24, fermion.MAX_BYTES)
            number, length = answer.numbers[0], answer.numbers[3]
            expected = tuple(answer.numbers[:3]) if number else Record(answer.lent[1][:length])
            self.assertEqual(outcome(Record.parse, m, text), expected, text)
            self.assertEqual(outcome(fermion.import_, m, text.decode("latin-1")), expected, text)
            met.add(number)
            if number:
                continue
            need = ladder_text.work_for(ladder_text.read(text))
            for work_len, out_len in ((need, length), (need + 5, length + 5), (max(0, need - 1), length), (need, length - 1)):
                work, out = (bytearray(self.rng.randbytes(size)) for size in (work_len, out_len))
                answer = ladder_text.import_(m, text, work_len, out_len)
                told = tuple(answer.numbers[:3]) if answer.numbers[0] else expected
                self.assertEqual(outcome(fermion.import_, m, text, work=work, out=out), told)
                self.assertEqual((work, out), answer.lent)
        self.assertLessEqual({0, 2, 16}, met)

    def test_records(self):
        for _ in range(CASES):
            m = self.rng.randint(1, 64)
            rows = draws.rows(self.rng, m, self.rng.randint(0, 12))
            record, text = Record(records.encode(m, rows)), ladder_text.text_of(rows)
            self.assertEqual(record.text(), text.decode())
            for size in (len(text), len(text) + 9, max(0, len(text) - 1)):
                out, answer = bytearray(self.rng.randbytes(size)), ladder_text.export(bytes(record), size)
                told = tuple(answer.numbers[:3]) if answer.numbers[0] else text.decode()
                self.assertEqual(outcome(fermion.export, record, out=out), told)
                self.assertEqual(out, answer.lent[0])
            back = outcome(Record.parse, m, record.text())
            self.assertEqual(back if isinstance(back, tuple) else bytes(back), self.expected_back(record, text))

    def expected_back(self, record, text):
        """The same bytes, but for a line of more than 12 ladders, and lines that may weigh too much or need too much work."""
        answer = ladder_text.import_(record.modes, text, fermion.WORK_CEILING, fermion.MAX_BYTES)
        return tuple(answer.numbers[:3]) if answer.numbers[0] else bytes(record)

    def test_the_longest_text_fits(self):
        full = 2**64 - 1
        record = Record.build(64, [(full ^ p << 40, full, -(2**49)) for p in range(2048)])
        self.assertEqual(record.text().encode(), ladder_text.text_of(records.decode(bytes(record))[1]))
        self.assertLess(len(record.text()), fermion.MAX_TEXT)
        self.assertLess(len(Record.build(64, [(full, full, -(2**60))]).text()), _text.LONGEST + 1)


class Memory(unittest.TestCase):
    def lengths(self, m, text, **lent):
        """The lengths of work and output that the library is lent, call by call."""
        tried = []

        def counted(name, *args):
            tried.append([len(arg) for arg in args[2:]])
            return _face.call(name, *args)
        with mock.patch.object(_text, "call", counted):
            try:
                fermion.import_(m, text, **lent)
            except Refusal as refusal:
                tried.append(refusal.number)
        return tried

    def test_lines_of_up_to_4_ladders_are_tried_once(self):
        self.assertEqual(self.lengths(9, "1 0^ 1^ 2_ 3_\n" * 5), [[48 * 16 * 5, 32 + 24 * 80]])
        self.assertEqual(self.lengths(9, b"1\n" * 5000), [[48 * 16 * 5000, fermion.MAX_BYTES]])
        self.assertEqual(self.lengths(9, ""), [[48 * 16, 32 + 24 * 16]])

    def test_more_work_is_taken_while_it_is_too_little(self):
        tried = self.lengths(9, "1" + PAIRS)
        self.assertEqual([lent[0] for lent in tried], [48 << 4, 48 << 6, 48 << 8, 48 << 10, 48 << 12])

    def test_up_to_the_ceiling(self):
        self.assertEqual([lent[0] for lent in self.lengths(9, "1" + PAIRS, ceiling=48 << 12)][-1], 48 << 12)
        self.assertEqual(self.lengths(9, "1" + PAIRS, ceiling=(48 << 12) - 1)[-2:], [[(48 << 12) - 1, 32 + 24 * 2048], 7])
        self.assertEqual(self.lengths(9, "1\n", ceiling=47), [[47, 32], 7])
        self.assertEqual(self.lengths(9, "1\n", ceiling=-5), [[0, 32], 7])
        self.assertEqual(self.lengths(9, f"{10**20}\n", ceiling=0), [[0, 32], 8])
        self.assertRaises(TypeError, fermion.import_, 9, "1\n", ceiling=0.5)

    def test_the_ceiling_that_nobody_named(self):
        lines = fermion.WORK_CEILING // (48 << 12)  # of 12 ladders
        self.assertEqual(Record.parse(6, ("1" + PAIRS) * lines), lines * Record.parse(6, "1" + PAIRS))
        with Refused(self, 7, 0, 0):
            Record.parse(6, ("1" + PAIRS) * (lines + 1))
        self.assertEqual(len(Record.parse(6, ("1" + PAIRS) * (lines + 1), ceiling=1 << 25)), 64)

    def test_a_text_is_not_copied(self):
        long = bytearray(b"1\n" * (1 << 20))
        mapped = mmap.mmap(-1, len(long))
        mapped.write(long)
        work, out = bytearray(48 << 20), bytearray(100)
        for text in (bytes(long), long, memoryview(long), mapped):
            tracemalloc.start()
            fermion.import_(1, text, work=work, out=out)
            peak = tracemalloc.get_traced_memory()[1]
            tracemalloc.stop()
            self.assertLess(peak, 1 << 16, type(text))
        mapped.close()

    def test_memory_is_held_no_longer_than_the_call(self):
        text, work, out = bytearray(TEXT.encode()), bytearray(384), bytearray(80)
        fermion.import_(2, text, work=work, out=out)
        self.assertEqual((work, out), (bytes(384), EXAMPLE))
        for memory in (text, work, out):
            memory.append(49)  # a bytearray that is held cannot grow
        with Refused(self, 16, 0, 2):
            fermion.import_(2, text)
        text.append(10)
        self.assertEqual(fermion.import_(2, text).text(), "1\n" + TEXT)

    def test_memory_of_another_kind(self):
        for wrong in (bytes(400), "text", 400):
            self.assertRaises(TypeError, fermion.import_, 2, TEXT, work=wrong)
            self.assertRaises(TypeError, fermion.import_, 2, TEXT, out=wrong)
            self.assertRaises(TypeError, fermion.export, EXAMPLE, out=wrong)


class Everyday(unittest.TestCase):
    def test_a_hubbard_pair(self):
        h = -2 * fermion.hopping(4, 0, 1) + 7 * fermion.interaction(4, 0, 2)
        self.assertEqual(h.text(), "-2 1^ 0_\n-2 0^ 1_\n-7 0^ 2^ 0_ 2_\n")
        self.assertEqual(Record.parse(4, h.text()), h)
        self.assertEqual(Record.parse(64, h.text())[word(1), word(0)], -2)

    def test_answers_have_texts_too(self):
        a, b = one(2, (0,), (1,)), one(2, (1,), (0,))
        self.assertEqual(fermion.commutator(a, b).text(), TEXT)
        self.assertEqual(fermion.export(fermion.commutator(a, b)), TEXT)


if __name__ == "__main__":
    unittest.main()
