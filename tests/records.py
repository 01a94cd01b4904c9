#!/usr/bin/env python3
"""The specification's record, and what every call of the C face answers, in exact whole numbers.

Nothing here comes from zixy or from the library: both are compared with it. Products are brought into order
ladder by ladder (rule.py). A row is (ann, cre, coefficient), as in the record: annihilations first.

A model has the name of the function that it answers for (functions.py), and gives an Answer: the eight numbers, and the
bytes, after the call, of everything that is lent for writing or changing, in the order of include/fermion.h.

    python3 tests/records.py     checks this file against itself and the specification's examples
"""
import collections
import itertools
import math
import struct

import rule

MAX_MODES, MAX_TERMS, MAX_WEIGHT, MAX_BASIS = 64, 2048, 2**60, 8
HEADER, ROW = 32, 24
REPORT, MAX_REPORTED, MAX_COUNT, MAX_HIGH, UNIT = 201, 1024, 2**21, 1024, 2**60


class Answer(collections.namedtuple("Answer", "numbers lent")):
    def __repr__(self):
        return f"{self.numbers} and " + ("; ".join(map(cut, self.lent)) or "nothing lent")


def cut(data):
    """Bytes for a message: hexadecimal, without the zeros at the end, and not more than 96 of them."""
    core = data.rstrip(b"\0")
    return core[:96].hex() + (".." if len(core) > 96 else "") + f" ({len(data)} bytes)"


# The record


def u64(number):
    """The eight bytes of a word, or of a signed number as its two's complement."""
    return (number % 2**64).to_bytes(8, "little")


def words(numbers):
    """The bytes of words or signed numbers, one after the other."""
    return b"".join(map(u64, numbers))


def numbers_in(data):
    """The words that stand in bytes."""
    return list(struct.unpack(f"<{len(data) // 8}Q", data))


def header(m, n):
    return struct.pack("<8I", 1, m, n, HEADER, HEADER + 8 * n, HEADER + 16 * n, HEADER + ROW * n, 0)


def encode(m, rows):
    """The record of these rows as they stand: nothing is checked, sorted or joined."""
    return header(m, len(rows)) + words(row[column] for column in range(3) for row in rows)


def decode(record):
    """The mode count and the rows of a record whose header is right."""
    m, n = struct.unpack_from("<2I", record, 4)
    columns = struct.unpack_from(f"<{2 * n}Q{n}q", record, HEADER)
    return m, list(zip(columns[:n], columns[n:2 * n], columns[2 * n:]))


def header_is_right(record):
    if len(record) < HEADER:
        return False
    m, n = struct.unpack_from("<2I", record, 4)
    if not 1 <= m <= MAX_MODES or n > MAX_TERMS:
        return False
    return record[:HEADER] == header(m, n) and len(record) == HEADER + ROW * n


def weight(rows):
    return sum(abs(c) for _, _, c in rows)


def refusal(record, operand):
    """(number, operand, place), or None for a record that is accepted: 1; then per term 2, 3, 4; then 5."""
    if not header_is_right(record):
        return 1, operand, 0
    m, rows = decode(record)
    for place, (ann, cre, c) in enumerate(rows):
        if ann >> m or cre >> m:
            return 2, operand, place
        if place and (ann, cre) <= rows[place - 1][:2]:
            return 3, operand, place
        if c == 0:
            return 4, operand, place
    if weight(rows) > MAX_WEIGHT:
        return 5, operand, 0
    return None


def refusal_of_two(a, b):
    """The first record fully, the second likewise, then 6."""
    fault = refusal(a, 1) or refusal(b, 2)
    if fault is None and decode(a)[0] != decode(b)[0]:
        fault = 6, 0, 0
    return fault


def joined(rows):
    """Like terms joined, zeros dropped, ascending by (annihilation, creation)."""
    sums = collections.defaultdict(int)
    for ann, cre, c in rows:
        sums[ann, cre] += c
    return [(ann, cre, c) for (ann, cre), c in sorted(sums.items()) if c]


# Answers


def refused(fault, *lent):
    """A refusal: its three numbers, all else 0. Of what was lent, a length for zeros, or the bytes that stay as they were."""
    return Answer([*fault, 0, 0, 0, 0, 0], tuple(map(bytes, lent)))


def given(*values, length=0, count=0, lent=()):
    values += (0,) * (3 - len(values))
    return Answer([0, 0, 0, length, count, *(value % 2**64 for value in values)], tuple(lent))


def written(data, out_len, count=0, wiped=()):
    """What was written, zeros past it to the output's length, and zeros in the work."""
    return given(length=len(data), count=count, lent=(*wiped, data + bytes(out_len - len(data))))


def verdict(rows, out_len):
    """10, 9 or 11 of the exact result, in this order, or None."""
    if len(rows) > MAX_TERMS:
        return 10, 0, 0
    if weight(rows) > MAX_WEIGHT:
        return 9, 0, 0
    if HEADER + ROW * len(rows) > out_len:
        return 11, 0, 0
    return None


def of_one(record, value):
    """A call that reads one record and gives one number of its mode count and rows."""
    fault = refusal(record, 1)
    return refused(fault) if fault else given(value(*decode(record)))


# One term, one product


def apply(cre, ann, ket):
    outcome = rule.apply_term(cre, ann, ket)
    return given(1, outcome[0], outcome[1] < 0) if outcome else given(0, *rule.blocked(cre, ann, ket))


def row_count(left, right):
    """0 for an empty product, otherwise 2^b."""
    return 0 if rule.is_empty(left, right) else 1 << rule.size(rule.branching(left, right))


def mul_cmpnts(l_cre, l_ann, r_cre, r_ann, out_len):
    left, right = (l_cre, l_ann), (r_cre, r_ann)
    count = row_count(left, right)
    if ROW * count > out_len:
        return refused((7, 0, 0), out_len)
    rows = rule.mul_cmpnts(left, right) if count else []
    return written(words(itertools.chain(*rows)), out_len, count)


# Calls that read records


def check(a):
    fault = refusal(a, 1)
    if fault:
        return refused(fault)
    m, rows = decode(a)
    return given(m, len(rows), weight(rows))


def combined(a, b, sign, out_len):
    fault = refusal_of_two(a, b)
    if fault:
        return refused(fault, out_len)
    (m, left), (_, right) = decode(a), decode(b)
    rows = joined(left + [(ann, cre, sign * c) for ann, cre, c in right])
    fault = verdict(rows, out_len)
    return refused(fault, out_len) if fault else written(encode(m, rows), out_len)


def add(a, b, out_len):
    return combined(a, b, 1, out_len)


def sub(a, b, out_len):
    return combined(a, b, -1, out_len)


def branch_count(left, right):
    """The rows of all pairs of a left and a right term."""
    return sum(row_count((lc, la), (rc, ra)) for la, lc, _ in left for ra, rc, _ in right)


def product_rows(left, right, sign):
    """The rows of all pairs of terms, not joined."""
    for (l_ann, l_cre, x), (r_ann, r_cre, y) in itertools.product(left, right):
        if not rule.is_empty((l_cre, l_ann), (r_cre, r_ann)):
            for (cre, ann), c in rule.multiply((l_cre, l_ann), (r_cre, r_ann)).items():
                yield ann, cre, sign * x * y * c


def product(a, b, other_order, work_len, out_len):
    """A B, and where other_order is 1 or -1 also B A with that sign. 8 and 7 are decided before multiplying."""
    fault = refusal_of_two(a, b)
    if fault:
        return refused(fault, work_len, out_len)
    (m, left), (_, right) = decode(a), decode(b)
    orders = [(left, right, 1)] + ([(right, left, other_order)] if other_order else [])
    if weight(left) * weight(right) > MAX_WEIGHT:
        return refused((8, 0, 0), work_len, out_len)
    count = sum(branch_count(first, second) for first, second, _ in orders)
    if ROW * count > work_len:
        return refused((7, 0, 0), work_len, out_len)
    rows = joined(itertools.chain(*(product_rows(*order) for order in orders)))
    fault = verdict(rows, out_len)
    if fault:
        return refused(fault, work_len, out_len)
    return written(encode(m, rows), out_len, count, wiped=(bytes(work_len),))


def mul(a, b, work_len, out_len):
    return product(a, b, 0, work_len, out_len)


def commutator(a, b, work_len, out_len):
    return product(a, b, -1, work_len, out_len)


def anticommutator(a, b, work_len, out_len):
    return product(a, b, 1, work_len, out_len)


def branches(a, b):
    """Those of A B and of B A: 7 where the rows of both would take more than 2^63 bytes."""
    fault = refusal_of_two(a, b)
    if fault:
        return refused(fault)
    left, right = decode(a)[1], decode(b)[1]
    forward, backward = branch_count(left, right), branch_count(right, left)
    if ROW * (forward + backward) > 2**63:
        return refused((7, 0, 0))
    return given(backward, count=forward)


def pairs(word):
    return rule.size(word) * (rule.size(word) - 1) // 2


def adjoint_rows(rows):
    return joined((cre, ann, c * (-1) ** (pairs(cre) + pairs(ann))) for ann, cre, c in rows)


def adjoint(a, out_len):
    fault = refusal(a, 1)
    if not fault and len(a) > out_len:
        fault = 11, 0, 0
    if fault:
        return refused(fault, out_len)
    m, rows = decode(a)
    return written(encode(m, adjoint_rows(rows)), out_len)


def is_hermitian(a):
    return of_one(a, lambda m, rows: encode(m, adjoint_rows(rows)) == a)


def conserves_particle_number(a):
    return of_one(a, lambda m, rows: all(rule.size(ann) == rule.size(cre) for ann, cre, _ in rows))


def rank(ann, cre):
    """The larger of the annihilation and creation counts."""
    return max(rule.size(ann), rule.size(cre))


def max_n_body(a):
    return of_one(a, lambda m, rows: max((rank(ann, cre) for ann, cre, _ in rows), default=0))


def active_modes(a):
    def union(m, rows):
        word = 0
        for ann, cre, _ in rows:
            word |= ann | cre
        return word
    return of_one(a, union)


def block(a, ann):
    """Offset and length of the stretch of the creation column; the empty part is 0, 0."""
    if refusal(a, 1):
        return given()
    _, rows = decode(a)
    places = [place for place, row in enumerate(rows) if row[0] == ann]
    if not places:
        return given()
    return given(HEADER + 8 * len(rows) + 8 * places[0], 8 * len(places))


# The report: accepted, refused, the share of all terms, the largest weight, then a share for each rank. A share is three
# numbers, terms, high and low: its weight is high times UNIT plus low.

SHARES = [2, *range(6, REPORT, 3)]  # where they begin: that of all terms, then rank 0 to rank 64


def is_bad_share(terms, high, low):
    return terms > MAX_COUNT or high > MAX_HIGH or low >= UNIT


def is_bad_report(report):
    """Full, or with a share above its limits; nothing else of it is judged."""
    full = report[0] + report[1] >= MAX_REPORTED
    return full or any(is_bad_share(*report[at:at + 3]) for at in SHARES)


def share_with(share, rows):
    """A share with some rows counted in."""
    terms, high, low = share
    return terms + len(rows), *divmod(high * UNIT + low + weight(rows), UNIT)


def report_with(report, rows):
    """A report with the rows of an accepted record counted in."""
    by_rank = collections.defaultdict(list)
    for row in rows:
        by_rank[rank(*row[:2])].append(row)
    accepted, refusals, *_, largest = report[:6]
    shares = [share_with(report[at:at + 3], by_rank[r]) for r, at in enumerate(SHARES[1:])]
    return [accepted + 1, refusals, *share_with(report[2:5], rows), max(largest, weight(rows)), *itertools.chain(*shares)]


def report_add(a, report):
    """The lent bytes are the report. A record that is refused is no refusal of the call."""
    if is_bad_report(report):
        return refused((15, 0, 0), words(report))
    fault = refusal(a, 1)
    if fault:
        number, _, place = fault
        return given(0, number, place, lent=(words([report[0], report[1] + 1, *report[2:]]),))
    return given(1, lent=(words(report_with(report, decode(a)[1])),))


# Elements


def element_of(rows, bra, ket):
    """The sum of signed coefficients of the rows that take ket to bra."""
    total = 0
    for ann, cre, c in rows:
        outcome = rule.apply_term(cre, ann, ket)
        if outcome and outcome[0] == bra:
            total += outcome[1] * c
    return total


def outside(m, bra, ket):
    """12 for the bra, then for the ket, or None."""
    if bra >> m:
        return 12, 3, 0
    return (12, 4, 0) if ket >> m else None


def element(a, bra, ket):
    fault = refusal(a, 1) or outside(decode(a)[0], bra, ket)
    return refused(fault) if fault else given(element_of(decode(a)[1], bra, ket))


def basis_refusal(m, basis):
    """The length, then 12 in order, then repeats."""
    if len(basis) > MAX_BASIS:
        return 14, 3, 0
    for place, word in enumerate(basis):
        if word >> m:
            return 12, 3, place
    for place, word in enumerate(basis):
        if word in basis[:place]:
            return 14, 3, place
    return None


def mat_ortho_projected(a, basis):
    """The lent bytes are the matrix: 64 signed numbers, entry 8 i + j at bra basis[i] and ket basis[j]."""
    fault = refusal(a, 1) or basis_refusal(decode(a)[0], basis)
    if fault:
        return refused(fault, 8 * MAX_BASIS**2)
    matrix = [0] * MAX_BASIS**2
    for i, bra in enumerate(basis):
        for j, ket in enumerate(basis):
            matrix[MAX_BASIS * i + j] = element_of(decode(a)[1], bra, ket)
    return given(lent=(words(matrix),))


def compare(a, b):
    fault = refusal_of_two(a, b)
    if fault:
        return refused(fault)
    different = set(decode(a)[1]) ^ set(decode(b)[1])
    if not different:
        return given(1)
    ann, cre, _ = min(different, key=lambda row: (rule.size(row[0]), *row[:2]))
    return given(0, cre, ann)


# Float elements: a coefficient is given as the 64 bits of its binary64, or as one such for each part


def float_of(bits):
    return struct.unpack("<d", u64(bits))[0]


def bits_of(number):
    return int.from_bytes(struct.pack("<d", number), "little")


def list_refusal(m, cre, ann, parts):
    """1; then per term 2, 13."""
    lengths = {len(cre), len(ann), *map(len, parts)}
    if not 1 <= m <= MAX_MODES or len(lengths) > 1 or max(lengths) > MAX_TERMS:
        return 1, 1, 0
    for place in range(len(cre)):
        if cre[place] >> m or ann[place] >> m:
            return 2, 1, place
        if not all(math.isfinite(float_of(part[place])) for part in parts):
            return 13, 1, place
    return None


def mat_elem(m, cre, ann, parts, bra, ket):
    """The lent bytes are the value, re and im. Start from plus zero; one rounding for each joining term."""
    fault = list_refusal(m, cre, ann, parts) or outside(m, bra, ket)
    if fault:
        return refused(fault, 16)
    sums = [0.0, 0.0]
    for place in range(len(cre)):
        outcome = rule.apply_term(cre[place], ann[place], ket)
        if not outcome or outcome[0] != bra:
            continue
        for i, part in enumerate(parts):
            number = float_of(part[place])
            sums[i] += number if outcome[1] > 0 else -number
        if not all(map(math.isfinite, sums)):
            return refused((13, 1, place), 16)
    return given(lent=(struct.pack("<2d", *sums),))


def mat_elem_real(m, cre, ann, coeff, bra, ket):
    return mat_elem(m, cre, ann, [coeff], bra, ket)


def mat_elem_complex(m, cre, ann, re, im, bra, ket):
    return mat_elem(m, cre, ann, [re, im], bra, ket)


# This file against itself

EXAMPLE = bytes.fromhex("""
    01000000 02000000 02000000 20000000 30000000 40000000 50000000 00000000
    0100000000000000 0200000000000000 0100000000000000 0200000000000000
    0100000000000000 FFFFFFFFFFFFFFFF""")


def check_example():
    """The whole example, case 14 and case 15."""
    assert encode(2, [(1, 1, 1), (2, 2, -1)]) == EXAMPLE and refusal(EXAMPLE, 1) is None
    assert decode(EXAMPLE) == (2, [(1, 1, 1), (2, 2, -1)])
    a, b = encode(2, [(2, 1, 1)]), encode(2, [(1, 2, 1)])
    assert commutator(a, b, 96, 80) == Answer([0, 0, 0, 80, 4, 0, 0, 0], (bytes(96), EXAMPLE))
    assert commutator(a, b, 97, 82) == Answer([0, 0, 0, 80, 4, 0, 0, 0], (bytes(97), EXAMPLE + bytes(2)))
    assert commutator(a, b, 95, 80) == Answer([7, 0, 0, 0, 0, 0, 0, 0], (bytes(95), bytes(80)))
    assert commutator(a, b, 96, 79) == Answer([11, 0, 0, 0, 0, 0, 0, 0], (bytes(96), bytes(79)))
    elements = [element(EXAMPLE, word, word).numbers[5] for word in (1, 2, 3)]
    assert elements == [1, 2**64 - 1, 0]
    one, none = encode(2, [(0, 0, 1)]), encode(2, [])
    assert compare(one, none) == compare(none, one) == Answer([0] * 8, ())
    assert compare(one, one) == compare(none, none) == Answer([0, 0, 0, 0, 0, 1, 0, 0], ())
    assert adjoint(encode(2, [(0, 3, 1)]), 56).lent == (encode(2, [(3, 0, -1)]),)


def check_refusals():
    """Records and lists made to be refused, and two faults at once."""
    rows = [(1, 1, 1), (2, 2, -1)]
    for number, place, wrong in [
        (2, 0, [(4, 1, 0), (2, 2, -1)]), (2, 1, [(1, 1, 1), (1, 4, 0)]), (3, 1, [(1, 1, 1), (1, 1, 0)]),
        (3, 1, [(1, 1, 1), (1, 0, 1)]), (4, 1, [(1, 1, 1), (2, 2, 0)]), (4, 0, [(1, 1, 0), (1, 1, 1)]),
        (5, 0, [(1, 1, 2**60), (2, 2, -1)]), (5, 0, [(1, 1, -2**63)]), (4, 1, [(1, 1, -2**63), (2, 2, 0)]),
    ]:
        assert refusal(encode(2, wrong), 1) == (number, 1, place), wrong
    assert refusal(encode(2, [(1, 1, 2**60 - 1), (2, 2, -1)]), 1) is None
    for wrong in (b"", EXAMPLE[:-1], EXAMPLE + b"\0", encode(0, []), encode(65, []), EXAMPLE[:31]):
        assert refusal(wrong, 2) == (1, 2, 0)
    too_many = encode(64, [(i, 0, 1) for i in range(2049)])
    assert refusal(too_many, 1) == (1, 1, 0) and check(encode(64, [(i, 0, 1) for i in range(2048)])).numbers[0] == 0
    big = encode(2, [(0, 0, 2**30 + 1)])
    assert mul(big, big, 0, 0).numbers[0] == 8
    assert mul(encode(2, [(0, 0, 2**30)]), encode(2, [(0, 0, 2**30)]), 24, 56).numbers[:4] == [0, 0, 0, 56]
    full = encode(64, [(2**64 - 1, 0, 1)]), encode(64, [(0, 2**64 - 1, 1)])
    assert mul(*full, 65520, 49184).numbers[0] == 7
    assert mat_ortho_projected(EXAMPLE, [0, 4, 0]).numbers[:3] == [12, 3, 1]
    assert mat_ortho_projected(EXAMPLE, [0, 1, 2, 1, 0]).numbers[:3] == [14, 3, 3]
    assert mat_ortho_projected(EXAMPLE, [4] * 9).numbers[:3] == [14, 3, 0]
    huge = bits_of(1.5e308)
    assert mat_elem_real(1, [0, 1, 0], [0, 1, 0], [huge] * 3, 0, 0).numbers[:3] == [13, 1, 2]
    assert mat_elem_real(2, [0], [3], [bits_of(0.0)], 0, 3) == Answer([0] * 8, (bytes(16),))


def check_ranks():
    """{|} has rank 0, {0|} 1, {0,1|2} 2; of a record the largest counts, and of no terms 0."""
    rows = [(0, 0, 1), (0, 1, 1), (4, 3, 1)]
    assert [rank(ann, cre) for ann, cre, _ in rows] == [0, 1, 2]
    assert [max_n_body(encode(3, rows[:n])).numbers[5] for n in range(4)] == [0, 0, 1, 2]


def check_report():
    """Case 14's record counted, then one that is refused; a full report and one with a low of 2^60."""
    one = [1, 0, 2, 0, 2, 2, 0, 0, 0, 2, 0, 2, *[0] * 189]  # both terms have rank 1
    assert report_add(EXAMPLE, [0] * REPORT) == Answer([0, 0, 0, 0, 0, 1, 0, 0], (words(one),))
    two = words([1, 1, *one[2:]])
    assert report_add(EXAMPLE[:-1], one) == Answer([0, 0, 0, 0, 0, 0, 1, 0], (two,))
    assert report_add(encode(2, [(1, 1, 1), (2, 2, 0)]), one) == Answer([0, 0, 0, 0, 0, 0, 4, 1], (two,))
    for wrong in ([1000, 24, *one[2:]], [2**64 - 1, 1, *one[2:]], [*one[:-1], 2**60]):
        for a in (EXAMPLE, b""):
            assert report_add(a, wrong) == Answer([15, 0, 0, 0, 0, 0, 0, 0], (words(wrong),))
    near = [1023, 0, 2**21, 1024, 2**60 - 1, 2**64 - 1, *[0] * 195]
    assert numbers_in(report_add(EXAMPLE, near).lent[0])[:6] == [1024, 0, 2**21 + 2, 1025, 1, 2**64 - 1]


def some_records(m, n):
    """Records on m modes with up to 3 rows, n of them, spread over all that there are."""
    words = [(ann, cre) for ann in range(1 << m) for cre in range(1 << m)]
    for i in range(n):
        at = {(7 * i + 3) % len(words), (i * i + i // 5) % len(words), (i * 13 + 1) % len(words)}
        yield encode(m, [(*words[j], (i + j) % 5 - 2 or 3) for j in sorted(at)])


def matrix_of(record):
    m, rows = decode(record)
    words = range(1 << m)
    return [[element_of(rows, bra, ket) for ket in words] for bra in words]


def times(x, y):
    return [[sum(p * q for p, q in zip(row, column)) for column in zip(*y)] for row in x]


def plus(x, y, sign):
    return [[p + sign * q for p, q in zip(*rows)] for rows in zip(x, y)]


def check_elements(m, n):
    """Elements of sums, products and adjoints are what the elements of the operands make."""
    sample = list(some_records(m, n))
    matrices = [matrix_of(record) for record in sample]
    room = HEADER + ROW * MAX_TERMS
    record_in = lambda answer: answer.lent[-1][:answer.numbers[3]]
    for i, (a, x) in enumerate(zip(sample, matrices)):
        flipped = [list(row) for row in zip(*x)]
        assert matrix_of(record_in(adjoint(a, room))) == flipped
        assert is_hermitian(a).numbers[5] == (x == flipped)
        moved = [(bra, ket) for bra, row in enumerate(x) for ket, c in enumerate(row) if c]
        if conserves_particle_number(a).numbers[5]:
            assert all(rule.size(bra) == rule.size(ket) for bra, ket in moved)
        else:
            assert any(rule.size(bra) != rule.size(ket) for bra, ket in moved)
        b, y = sample[(3 * i + 1) % n], matrices[(3 * i + 1) % n]
        xy, yx = times(x, y), times(y, x)
        for call, expected in ((mul, xy), (commutator, plus(xy, yx, -1)), (anticommutator, plus(xy, yx, 1))):
            answer = call(a, b, room, room)
            assert answer.numbers[0] == 0 and refusal(record_in(answer), 1) is None
            assert matrix_of(record_in(answer)) == expected
        assert matrix_of(record_in(add(a, b, room))) == plus(x, y, 1)
        assert matrix_of(record_in(sub(a, b, room))) == plus(x, y, -1)
        equal, bra, ket = compare(a, b).numbers[5:]
        assert equal == (x == y) and (equal or x[bra][ket] != y[bra][ket])
    return n


if __name__ == "__main__":
    check_example()
    print("the whole example, cases 14 and 15: as written there")
    check_refusals()
    print("refusals: in the order of the specification")
    check_ranks()
    check_report()
    print("ranks and the report: as worked out by hand")
    for m, n in ((1, 300), (2, 600), (3, 200)):
        print(f"records on {m} modes: elements of the answers are those of the operands, {check_elements(m, n)} pairs")
