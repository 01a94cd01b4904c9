"""Every function on drawn operators, accepted and damaged, against tests/records.py of the repository."""
import random
import struct
import sys
import unittest
from array import array
from pathlib import Path

from common import figures, told

import fermion
from fermion import FloatTerms, Record, Refusal, Term

sys.path.insert(0, str(Path(__file__).resolve().parents[3] / "tests"))
import draws  # noqa: E402
import records  # noqa: E402
import rule  # noqa: E402

SEED = 20261121
CASES = 300


def outcome(function, *args, **lent):
    """What a function of the package gives; the three numbers of a refusal."""
    try:
        return function(*args, **lent)
    except Refusal as refusal:
        return refusal.number, refusal.operand, refusal.place


def expected(answer, value):
    """The same of an answer of records.py: a refusal's numbers, else the value made of it."""
    return tuple(answer.numbers[:3]) if answer.numbers[0] else value(answer)


def in_out(answer):
    return answer.lent[-1][:answer.numbers[3]]


def terms(rows):
    return [Term(cre, ann, coeff) for ann, cre, coeff in rows]


class Drawn(unittest.TestCase):
    def setUp(self):
        self.rng = random.Random(f"{SEED} {self.id()}")

    def record(self, m, rows):
        """A record's bytes; one in five damaged."""
        kind = self.rng.randrange(10)
        if kind == 0:
            return self.rng.choice(list(draws.damaged_headers(self.rng, records.encode(m, rows))))
        if kind == 1 and len(rows) > 1:
            return records.encode(m, self.rng.choice(list(draws.damaged_terms(self.rng, m, rows)))[2])
        return records.encode(m, rows)

    def one(self):
        m = self.rng.randint(1, 64)
        rows = draws.rows(self.rng, m, self.rng.randint(0, 8))
        return self.record(m, draws.swapped_too(self.rng, rows) if self.rng.random() < 0.4 else rows)

    def two(self):
        m = self.rng.randint(1, 64)
        other = m if self.rng.random() < 0.95 else self.rng.randint(m, 64)
        rows = draws.rows(self.rng, m, self.rng.randint(0, 8))
        return self.record(m, rows), self.record(other, draws.relative(self.rng, m, rows))

    def memory(self, length):
        """A caller's own memory, full of what an earlier job left."""
        return bytearray(self.rng.randbytes(length))

    def near(self, length):
        return max(0, length + self.rng.choice((0, 0, 0, -1, 1, 40)))

    def same(self, name, args, value):
        answer = getattr(records, name)(*args)
        self.assertEqual(outcome(getattr(fermion, name), *args), expected(answer, value), (name, args))

    def test_reading_and_building(self):
        for _ in range(CASES):
            a = self.one()
            if records.refusal(a, 1):
                self.assertEqual(outcome(Record, a), records.refusal(a, 1))
                continue
            m, rows = records.decode(a)
            record = Record(a)
            self.assertEqual((record.modes, list(record)), (m, terms(rows)))
            parts = [Term(*words, part) for *words, coeff in record for part in (coeff - 7, 7)]
            self.rng.shuffle(parts)
            self.assertEqual(bytes(Record.build(m, parts)), a)

    def test_one_term(self):
        for _ in range(CASES):
            m = self.rng.randint(1, 64)
            (ann, cre), (_, ket) = draws.term(self.rng, m, "few"), draws.term(self.rng, m, "dense")
            ket = (ket | ann) & ~(cre & ~ann) if self.rng.random() < 0.8 else ket
            acts, blocked = rule.apply_term(cre, ann, ket), rule.blocked(cre, ann, ket)
            self.assertEqual(fermion.apply(cre, ann, ket), fermion.Applied(*acts) if acts else fermion.Zero(*blocked))

    def test_one_product(self):
        for _ in range(CASES):
            m = self.rng.randint(1, 64)
            near = self.rng.sample(range(m), min(m, 6))
            (l_ann, l_cre), (r_ann, r_cre) = (draws.term(self.rng, m, "few", near) for _ in "lr")
            left, right = (l_cre, l_ann), (r_cre, r_ann)
            rows = rule.mul_cmpnts(left, right)
            self.assertEqual(fermion.mul_cmpnts(left, right), terms(rows))
            length = self.near(24 * len(rows))
            out = self.memory(length)
            answer = records.mul_cmpnts(*left, *right, length)
            self.assertEqual(outcome(fermion.mul_cmpnts, left, right, out=out), expected(answer, lambda _: terms(rows)))
            self.assertEqual(out, answer.lent[0])

    def test_sums(self):
        for _ in range(CASES):
            a, b = self.two()
            for name in ("add", "sub"):
                function, answer = getattr(fermion, name), getattr(records, name)(a, b, records.HEADER + 24 * 2048)
                result = expected(answer, lambda it: Record(in_out(it)))
                self.assertEqual(outcome(function, a, b), result)
                out = self.memory(self.near(answer.numbers[3]))
                answer = getattr(records, name)(a, b, len(out))
                self.assertEqual(outcome(function, a, b, out=out), expected(answer, lambda it: Record(in_out(it))))
                self.assertEqual(out, answer.lent[0])

    def product_pair(self):
        """Two small operators on a few modes."""
        m = self.rng.randint(1, 64)
        near = self.rng.sample(range(m), min(m, 5))
        return [self.record(m, draws.rows(self.rng, m, self.rng.randint(0, 4), "few", True, near)) for _ in "ab"]

    def test_products(self):
        for _ in range(CASES // 3):
            a, b = self.product_pair()
            for name in ("mul", "commutator", "anticommutator"):
                function, call = getattr(fermion, name), getattr(records, name)
                value = lambda it: (Record(in_out(it)), it.numbers[4])
                answer = call(a, b, 24 << 14, fermion.MAX_BYTES)
                both = lambda *args, **lent: told(function(*args, **lent))
                self.assertEqual(outcome(both, a, b), expected(answer, value))
                work, out = (self.memory(self.near(length)) for length in (24 * answer.numbers[4], answer.numbers[3]))
                answer = call(a, b, len(work), len(out))
                self.assertEqual(outcome(both, a, b, work=work, out=out), expected(answer, value))
                self.assertEqual((work, out), answer.lent)

    def wide_pair(self):
        """Two operators whose products may have more branches than 64 bits count."""
        m = self.rng.choice((64, 60, 30))
        left, right = ([], [])
        for _ in range(self.rng.randint(1, 4)):
            most = (1 << m) - 1 >> self.rng.randrange(7)
            left.append((most & ~self.few(m), self.few(m) & self.few(m), self.rng.choice((1, -2))))
            right.append((self.few(m) & self.few(m), most & ~self.few(m), self.rng.choice((1, -2))))
        return [records.encode(m, records.joined(rows)) for rows in (left, right)]

    def few(self, m):
        return sum(1 << p for p in self.rng.sample(range(m), 2))

    def test_branches(self):
        seen = set()
        for i in range(2 * CASES):
            a, b = (self.two, self.product_pair, self.wide_pair)[i % 3]()
            result = expected(records.branches(a, b), lambda answer: tuple(answer.numbers[4:6]))
            self.assertEqual(outcome(fermion.branches, a, b), result)
            seen.add(result[0] if len(result) == 3 else 0)
        self.assertLessEqual({0, 1, 2, 6, 7}, seen)

    def accepted_pair(self):
        """Two small operators on a few modes of one mode count, none damaged: their mode count and rows."""
        m = self.rng.randint(1, 64)
        near = self.rng.sample(range(m), min(m, 4))
        return m, [draws.rows(self.rng, m, self.rng.randint(0, 4), "few", True, near) for _ in "ab"]

    def test_operators(self):
        for _ in range(CASES // 3):
            m, rows = self.accepted_pair()
            a, b = (records.encode(m, each) for each in rows)
            x, y, work, room = Record(a), Record(b), 24 << 14, fermion.MAX_BYTES
            scaled = lambda k: records.encode(m, [(ann, cre, k * c) for ann, cre, c in rows[0] if k])
            k = self.rng.randint(-9, 9)
            square = in_out(records.mul(a, a, work, room))
            for made, expected_bytes in [
                (x + y, in_out(records.add(a, b, room))), (x - y, in_out(records.sub(a, b, room))),
                (x * y, in_out(records.mul(a, b, work, room))), (x.commutator(y), in_out(records.commutator(a, b, work, room))),
                (x.anticommutator(y), in_out(records.anticommutator(a, b, work, room))),
                (x.adjoint(), in_out(records.adjoint(a, room))), (-x, scaled(-1)), (k * x, scaled(k)), (x * k, scaled(k)),
                (x ** 0, records.encode(m, [(0, 0, 1)])), (x ** 1, a), (x ** 2, square),
                (x ** 3, in_out(records.mul(square, a, work, room))),
            ]:
                self.assertEqual(bytes(made), expected_bytes)
            self.assertEqual((x == y, hash(x) == hash(y)), (a == b, a == b))

    def ladders(self, m):
        near = self.rng.sample(range(m), min(m, 4))
        return [(self.rng.choice(near), self.rng.randint(0, 1)) for _ in range(self.rng.randint(0, 8))]

    def by_rule(self, ladders):
        """The product of ladders, one after the other: {(cre, ann): coefficient}."""
        total = {(0, 0): 1}
        for p, creates in ladders:
            total = rule.times_ladder(total, creates, p)
        return total

    def test_ladders(self):
        for _ in range(CASES):
            m, rows, products = self.rng.randint(1, 64), [], []
            for _ in range(self.rng.randint(0, 6)):
                ladders, coeff = self.ladders(m), draws.coefficient(self.rng)
                product = [(ann, cre, coeff * c) for (cre, ann), c in self.by_rule(ladders).items()]
                self.assertEqual(bytes(Record.ladders(m, ladders, coeff)), records.encode(m, records.joined(product)))
                rows += product
                products.append((tuple(ladders), coeff))
            result = records.joined(rows)
            fault = records.verdict(result, fermion.MAX_BYTES)
            made = outcome(Record.from_ladders, m, products)
            self.assertEqual(made if fault else bytes(made), fault or records.encode(m, result))
            if len(dict(products)) == len(products):
                self.assertEqual(outcome(Record.from_ladders, m, dict(products)), made)

    def test_indexing(self):
        for _ in range(CASES):
            m = self.rng.randint(1, 64)
            rows = draws.rows(self.rng, m, self.rng.randint(0, 12), near=self.rng.sample(range(m), min(m, 3)))
            record, known = Record(records.encode(m, rows)), {row[:2]: row[2] for row in rows}
            words = [word for row in rows for word in row[:2]] + [self.rng.getrandbits(64), 0]
            for ann in words:
                for cre in words:
                    self.assertEqual(record[cre, ann], known.get((ann, cre), 0))

    def test_matrices_of_20_words(self):
        for _ in range(CASES // 10):
            m = self.rng.randint(5, 64)
            near = self.rng.sample(range(m), 5)
            rows = draws.rows(self.rng, m, self.rng.randint(0, 12), self.rng.choice(("few", "body")), near=near)
            basis = [sum(1 << p for i, p in enumerate(near) if choice >> i & 1) for choice in self.rng.sample(range(32), 20)]
            self.assertEqual(Record(records.encode(m, rows)).matrix(basis),
                             [[records.element_of(rows, bra, ket) for ket in basis] for bra in basis])

    def test_one_record(self):
        told = lambda answer: answer.numbers[5]
        for _ in range(CASES):
            a = self.one()
            for name in ("is_hermitian", "conserves_particle_number", "max_n_body", "active_modes"):
                self.same(name, (a,), told)
            self.same("check", (a,), lambda answer: tuple(answer.numbers[5:]))
            answer = records.adjoint(a, len(a))
            self.assertEqual(outcome(fermion.adjoint, a), expected(answer, lambda it: Record(in_out(it))))
            out = self.memory(self.near(len(a)))
            answer = records.adjoint(a, len(out))
            self.assertEqual(outcome(fermion.adjoint, a, out=out), expected(answer, lambda it: Record(in_out(it))))
            self.assertEqual(out, answer.lent[0])

    def test_reports(self):
        for _ in range(CASES // 10):
            batch = [self.one() for _ in range(self.rng.randint(0, 20))]
            report, own = fermion.Report(), array("Q", [0] * 201)
            for a in batch:
                fault = records.refusal(a, 1)
                for answer in (report.add(a), fermion.report_add(a, own)):
                    self.assertEqual((answer.accepted, answer.refusal and answer.refusal.args), (not fault, fault or None))
            known = [None if records.refusal(a, 1) else terms(records.decode(a)[1]) for a in batch]
            self.assertEqual(list(report.numbers), figures(known))
            self.assertEqual(own.tolist(), figures(known))

    def test_blocks(self):
        for _ in range(CASES):
            a = self.one()
            n = (len(a) - 32) // 24
            known = struct.unpack_from(f"<{n}Q", a, 32) if n > 0 else ()
            for ann in (*known, self.rng.getrandbits(64)):
                start, length = records.block(a, ann).numbers[5:7]
                self.assertEqual(bytes(fermion.block(a, ann)), a[start:start + length])

    def test_elements_and_matrices(self):
        signed = lambda answer: answer.numbers[5] - (answer.numbers[5] >> 63 << 64)
        for _ in range(CASES):
            a = self.one()
            words = self.words_near(a)
            self.same("element", (a, self.rng.choice(words), self.rng.choice(words)), signed)
            basis = [self.rng.choice(words) for _ in range(self.rng.randint(0, 9))] if self.rng.random() < 0.3 \
                else self.rng.sample(words, min(len(words), 8))
            k = len(basis)
            self.same("mat_ortho_projected", (a, basis), lambda answer: [
                list(struct.unpack_from(f"<{k}q", answer.lent[0], 64 * i)) for i in range(k)])

    def words_near(self, a):
        """Words that the record's terms lead to or from, and one that may be outside."""
        words = {0, self.rng.getrandbits(64)}
        if records.header_is_right(a):
            for ann, cre, _ in records.decode(a)[1][:5]:
                words |= {ann, cre, ann | cre}
        return sorted(words)

    def test_comparisons(self):
        def value(answer):
            equal, bra, ket = answer.numbers[5:]
            return (True, None, None) if equal else (False, bra, ket)
        for i in range(CASES):
            a, b = self.two()
            self.same("compare", (a, a if i % 5 == 0 else b), value)

    def float_list(self):
        m, n = self.rng.randint(1, 6), self.rng.randint(0, 12)
        words = [draws.term(self.rng, m, "few") for _ in range(n)]
        if n and self.rng.random() < 0.1:
            words[self.rng.randrange(n)] = (1 << m, 0)
        parts = [[self.number() for _ in range(n)] for _ in "ri"]
        bra, ket = (self.rng.randrange(1 << m) for _ in "bk")
        if n and self.rng.random() < 0.7:
            bra, ket = words[0][1], words[0][0]
        return m, [cre for _, cre in words], [ann for ann, _ in words], parts, bra, ket

    def number(self):
        kind = self.rng.random()
        if kind < 0.02:
            return self.rng.choice((float("inf"), float("-inf"), float("nan")))
        return self.rng.choice((-0.0, 0.1, 1e16, -1e308, 1.7e308)) if kind < 0.3 else self.rng.uniform(-4, 4)

    def test_float_elements(self):
        for _ in range(3 * CASES):
            m, cre, ann, (re, im), bra, ket = self.float_list()
            bits = [[records.bits_of(number) for number in part] for part in (re, im)]
            value = lambda answer: answer.lent[0]
            got = outcome(fermion.mat_elem_real, m, cre, ann, re, bra, ket)
            got = struct.pack("<2d", got, 0.0) if isinstance(got, float) else got
            self.assertEqual(got, expected(records.mat_elem_real(m, cre, ann, bits[0], bra, ket), value))
            got = outcome(fermion.mat_elem_complex, m, cre, ann, list(map(complex, re, im)), bra, ket)
            got = struct.pack("<2d", got.real, got.imag) if isinstance(got, complex) else got
            self.assertEqual(got, expected(records.mat_elem_complex(m, cre, ann, *bits, bra, ket), value))

    def test_laid_out_float_terms(self):
        """By their bits; several elements of one list, so that one call leaves nothing for the next."""
        bits_in = lambda number: struct.pack("<2d", *((number.real, number.imag) if isinstance(number, complex) else (number, 0.0)))
        for _ in range(CASES):
            m, cre, ann, (re, im), bra, ket = self.float_list()
            bits = [[records.bits_of(number) for number in part] for part in (re, im)]
            complexes = list(map(complex, re, im))
            lists = [FloatTerms, lambda m, terms: FloatTerms.from_columns(m, *zip(*terms))] if cre else [FloatTerms]
            for call, parts, coeff in [(records.mat_elem_real, bits[:1], re), (records.mat_elem_complex, bits, complexes)]:
                if not coeff:
                    continue
                for make in lists:
                    laid_out = outcome(make, m, list(zip(cre, ann, coeff)))
                    refused = records.list_refusal(m, cre, ann, parts)
                    if refused:
                        self.assertEqual(laid_out, refused)
                        continue
                    for words in ((bra, ket), (ket, bra), (1 << m, ket), (bra, 1 << m), (bra, ket), (0, 0)):
                        got = outcome(laid_out.element, *words)
                        self.assertEqual(got if isinstance(got, tuple) else bits_in(got),
                                         expected(call(m, cre, ann, *parts, *words), lambda answer: answer.lent[0]))
                    self.same_matrix(laid_out, m, call, (cre, ann, *parts), bits_in)

    def same_matrix(self, laid_out, m, call, lists, bits_in):
        bras, kets = ([self.rng.randrange(1 << m) for _ in range(self.rng.randint(0, 3))] for _ in "bk")
        answers = [[call(m, *lists, bra, ket) for ket in kets] for bra in bras]
        refused = [tuple(answer.numbers[:3]) for row in answers for answer in row if answer.numbers[0]]
        got = outcome(laid_out.matrix, bras, kets)
        self.assertEqual(got if refused else [[bits_in(entry) for entry in row] for row in got],
                         refused[0] if refused else [[answer.lent[0] for answer in row] for row in answers])

    def test_float_terms_from_ladders(self):
        for i in range(CASES):
            m, sums, products = self.rng.randint(1, 64), {}, []
            for _ in range(self.rng.randint(1, 6)):
                ladders = self.ladders(m)
                coeff = complex(self.rng.uniform(-1, 1), self.rng.uniform(-1, 1)) if i % 2 else self.rng.uniform(-1, 1)
                for words, c in self.by_rule(ladders).items():
                    self.assertIn(c, (1, -1))
                    sums[words] = sums.get(words, 0.0) + (coeff if c > 0 else -coeff)
                products.append((tuple(ladders), coeff))
            made = {(cre, ann): coeff for cre, ann, coeff in FloatTerms.from_ladders(m, products)}
            self.assertEqual(made, {words: coeff for words, coeff in sums.items() if coeff})


if __name__ == "__main__":
    unittest.main()
