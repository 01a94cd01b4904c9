#!/usr/bin/env python3
"""Elements, projected matrices and the comparison through the C face, against records.py, the specification's cases 14
and 15, and the stored answers of zixy."""
import itertools
import struct

import draws
import face
import records
import stored
from calls import run

SEED = 20261119
TOP, FULL = 2**63, 2**64 - 1
HEAVIEST = 2**60
IDENTITY, NONE = records.encode(2, [(0, 0, 1)]), records.encode(2, [])


def signed(number):
    return number - 2**64 if number >> 63 else number


def check_cases(calls):
    """The elements of case 14's record, and case 15."""
    for word, value in ((1, 1), (2, -1), (3, 0)):
        got = calls.call("element", records.EXAMPLE, word, word)
        expected = records.Answer([0, 0, 0, 0, 0, value % 2**64, 0, 0], ())
        calls.tally.same("case 14: the elements 1, -1, 0", got, expected, word)
    for a, b, equal in ((IDENTITY, NONE, 0), (NONE, IDENTITY, 0), (IDENTITY, IDENTITY, 1), (NONE, NONE, 1)):
        got = calls.call("compare", a, b)
        expected = records.Answer([0, 0, 0, 0, 0, equal, 0, 0], ())
        calls.tally.same("case 15: different at bra 0, ket 0", got, expected, equal)


def acted_on(rng, m, rows):
    """A bra and a ket: most of the time a ket that a row acts on, and where it takes it."""
    ket, bra = face.word(rng, m, 0.5), face.word(rng, m, 0.5)
    if rows and rng.random() < 0.85:
        ann, cre, _ = rng.choice(rows)
        ket = (ket | ann) & ~(cre & ~ann)
        bra = ket & ~ann | cre
    return bra, ket


def check_drawn_elements(calls):
    rng = calls.rng
    for _ in range(2500):
        m = rng.randint(1, 64)
        rows = draws.rows(rng, m, rng.randint(0, 12))
        a = records.encode(m, rows)
        bra, ket = acted_on(rng, m, rows)
        calls.judge("element: drawn records", "element", a, bra, ket)
        if m < 64:
            high = 1 << rng.randint(m, 63)
            for words in ((bra | high, ket), (bra, ket | high), (bra | 1 << m, ket | high)):
                answer = calls.judge("element: a word outside the modes, refusal 12", "element", a, *words)
                assert answer.numbers[:3] == [12, 4 if words[0] == bra else 3, 0]


def check_every_element(calls):
    """Small records: every bra and ket, and words outside."""
    for _ in range(60):
        m = calls.rng.randint(1, 3)
        a = records.encode(m, draws.rows(calls.rng, m, calls.rng.randint(0, 20), "dense", small=True))
        for bra, ket in itertools.product(range((1 << m) + 1), repeat=2):
            calls.judge("element: every bra and ket on up to 3 modes", "element", a, bra, ket)


def check_large_elements(calls):
    """2,048 terms that all take a word to itself with plus, with sums at the ends of the range."""
    drawn = [calls.rng.choice((-1, 1)) * calls.rng.randint(1, 2**48) for _ in range(2048)]
    ends = [HEAVIEST - 2047] + [1] * 2047
    for coefficients in ([1] * 2048, [1, -1] * 1024, [2**49] * 2048, [-2**49] * 2048, ends, [-c for c in ends], drawn):
        a = records.encode(64, [(i, i, c * (-1) ** records.pairs(i)) for i, c in enumerate(coefficients)])
        for ket in (2047, FULL, 2046, 1024, 0, 2048, TOP):
            calls.judge("element: 2,048 terms", "element", a, ket, ket)
        assert signed(records.element(a, 2047, 2047).numbers[5]) == sum(coefficients)


# The projected matrix


def check_drawn_matrices(calls):
    """Bases of 0 to 8 words that the terms join."""
    rng = calls.rng
    for i in range(6600):
        m = rng.randint(1, 64)
        near = rng.sample(range(m), min(m, 4))
        rows = draws.rows(rng, m, rng.randint(0, 8), rng.choice(("few", "body")), near=near)
        inside = [sum(1 << p for j, p in enumerate(near) if code >> j & 1) for code in range(1 << len(near))]
        rest = face.word(rng, m, 0.5) & ~sum(1 << p for p in near)
        k = 8 if i % 8 == 0 and len(inside) >= 8 else rng.randint(0, min(8, len(inside)))
        basis = [rest | word for word in rng.sample(inside, k)]
        test = "mat_ortho_projected: a matrix of 8 words" if k == 8 else "mat_ortho_projected: drawn bases"
        calls.judge(test, "mat_ortho_projected", records.encode(m, rows), basis)


def check_bases(calls):
    """14 by length, then 12 in order, then 14 by repeats; each before what follows it."""
    rng = calls.rng
    a = records.encode(3, draws.rows(rng, 3, 9, "dense"))
    stated = [
        (14, 0, [*range(8), 0]), (14, 0, [8] * 9), (14, 0, [0] * 9), (14, 0, [*range(100, 2100)]), (14, 0, [0] * 2048),
        (12, 0, [8]), (12, 1, [0, 8, 9]), (12, 7, [*range(7), TOP]), (12, 2, [0, 0, FULL]), (12, 1, [5, 8, 5]),
        (14, 1, [0, 0]), (14, 1, [7, 7, 7]), (14, 3, [1, 2, 3, 2, 1]), (14, 7, [*range(7), 0]), (14, 4, [0, 1, 2, 3, 3, 2, 1]),
    ]
    for number, place, basis in stated:
        answer = calls.judge(f"bases: refusal {number}", "mat_ortho_projected", a, basis)
        assert answer.numbers[:3] == [number, 3, place]
    for _ in range(1000):
        basis = [rng.choice((*range(8), 8, FULL) if rng.random() < 0.1 else range(8)) for _ in range(rng.randint(0, 10))]
        calls.judge("bases: drawn, refused or not", "mat_ortho_projected", a, basis)
    for m in (1, 63, 64):
        top = records.encode(m, [(0, 0, 5), (1 << m - 1, 1 << m - 1, 7)])
        for basis in ([1 << m - 1], [0, 1 << m - 1], [(1 << m) - 1, 0], [1 << min(m, 63)], [0, FULL]):
            calls.judge("bases: the highest mode", "mat_ortho_projected", top, basis)


# The comparison


def check_drawn_comparisons(calls):
    """Records and copies changed in some terms. Where they differ, so do the library's elements at the pair named."""
    rng = calls.rng
    for i in range(8300):
        m = rng.randint(1, 64)
        rows = draws.rows(rng, m, rng.randint(0, 12), rng.choice(("dense", "few", "body")))
        other = {row[:2]: row[2] for row in rows}
        for _ in range(rng.randint(0, 4)):
            change_one(rng, m, other)
        pair = [records.encode(m, rows), records.encode(m, sorted((*words, c) for words, c in other.items()))]
        if i % 2:
            pair.reverse()
        calls.judge("compare: records and changed copies", "compare", *pair)
        got = calls.call("compare", *pair)
        if got.numbers[0] == 0 and not got.numbers[5]:
            elements = [calls.call("element", record, *got.numbers[6:]) for record in pair]
            calls.tally.same("compare: elements differ at the pair named", elements[0] != elements[1], True, got.numbers)
        if i % 25 == 0:
            calls.judge("compare: a record and itself", "compare", pair[0], pair[0])


def change_one(rng, m, terms):
    """Another coefficient, a term less, or a term more."""
    kind = rng.randrange(3) if terms else 2
    words = rng.choice(sorted(terms)) if terms else None
    if kind == 0:
        terms[words] = -terms[words] if rng.random() < 0.5 else draws.coefficient(rng)
    elif kind == 1:
        del terms[words]
    else:
        terms[draws.term(rng, m, rng.choice(("dense", "few", "body")))] = draws.coefficient(rng)


def check_named(calls):
    """Which of two differing terms is named: fewest annihilations, then the lowest (annihilation, creation)."""
    stated = [  # two terms (ann, cre) that differ; the first is named
        ((4, 7), (3, 0)), ((1, 5), (2, 0)), ((1, 4), (1, 5)), ((0, 1), (0, 7)), ((0, 7), (7, 0)), ((5, 7), (6, 1)),
        ((TOP, 0), (3, 0)), ((1, TOP), (TOP, 1)), ((TOP, 1), (TOP, TOP)), ((TOP, FULL), (TOP | 1, 0)),
        ((FULL - 1, 9), (FULL, 0)), ((TOP >> 1, 0), (TOP, 0)), ((0, TOP - 1), (0, TOP)),
    ]
    for (named, beside), alike in itertools.product(stated, ([], [(2**40, 2**41, 9)])):
        both = sorted([(*named, 1), (*beside, -1), *alike])
        for other in ([], [(*named, 2)], [(*beside, 1)], [(*named, 2), (*beside, 1)]):
            pair = [records.encode(64, rows) for rows in (both, sorted(other + alike))]
            for a, b in (pair, pair[::-1]):
                answer = calls.judge("compare: the term that is named", "compare", a, b)
                assert answer.numbers[5:] == [0, named[1], named[0]]


def check_large_comparisons(calls):
    """2,048 terms, different in the first, the last or some coefficient, or in a term."""
    rows = draws.many(calls.rng, 64, 2048)
    a = records.encode(64, rows)
    calls.judge("compare: 2,048 terms", "compare", a, records.encode(64, list(rows)))
    for place in (0, 1, 1000, 2047):
        changed = rows[:place] + [(*rows[place][:2], 5)] + rows[place + 1:]
        for other in (changed, rows[:place] + rows[place + 1:]):
            calls.judge("compare: 2,048 terms", "compare", a, records.encode(64, other))
            calls.judge("compare: 2,048 terms", "compare", records.encode(64, other), a)


# Refusals of records


def check_damaged(calls):
    """1 to 5 before bra, ket and basis; 1 to 6 of a comparison."""
    for m in (1, 2, 7, 33, 64):
        good = draws.many(calls.rng, m, 4 if m == 1 else 6)
        right, other = records.encode(m, good), records.encode(m % 64 + 1, [])
        wrong = [(1, 0, record) for record in draws.damaged_headers(calls.rng, right)]
        wrong += [(number, place, records.encode(m, rows)) for number, place, rows in
                  [*draws.damaged_terms(calls.rng, m, good), *draws.two_faults(calls.rng, m, good)]]
        for number, place, record in wrong:
            test, one = f"damaged records: refusal {number}", [number, 1, place, 0, 0, 0, 0, 0]
            states = (calls.rng.choice((0, FULL)) for _ in ("bra", "ket"))
            assert calls.judge(test, "element", record, *states).numbers == one
            for basis in ([0], [FULL, 0, 0], [0] * 9, []):
                assert calls.judge(test, "mat_ortho_projected", record, basis).numbers == one
            for operand, a, b in ((1, record, right), (2, right, record), (1, record, record), (2, other, record)):
                assert calls.judge(test, "compare", a, b).numbers == [number, operand, place, 0, 0, 0, 0, 0]
        for pair in ((right, other), (other, right)):
            assert calls.judge("two mode counts: refusal 6", "compare", *pair).numbers[0] == 6


# The stored answers of zixy


def placed(entries, n):
    """A matrix of n rows in the place of 64 entries, as bytes."""
    matrix = [0] * 64
    for i, j in itertools.product(range(n), repeat=2):
        matrix[8 * i + j] = entries[n * i + j]
    return struct.pack("<64q", *matrix)


def check_stored_matrices(calls):
    name = "mat_ortho_projected"
    for (function, m, *_), fields, agrees, answer in stored.lines("elements"):
        if function != "proj":
            continue
        a, basis = records.encode(int(m), stored.rows(fields[0])), [int(word, 16) for word in fields[1]]
        calls.judge(f"{name}: stored operators", name, a, basis)
        got = calls.call(name, a, basis)
        value = None if got.numbers[0] else got.lent[0]
        rust, about = placed([int(entry) for entry in answer], len(basis)), f"{m} {fields}"
        calls.judge_stored(name, value, rust, agrees, about)


run(SEED, (
    check_cases, check_drawn_elements, check_every_element, check_large_elements, check_drawn_matrices, check_bases,
    check_drawn_comparisons, check_named, check_large_comparisons, check_damaged, check_stored_matrices,
))
