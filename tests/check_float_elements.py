#!/usr/bin/env python3
"""Float elements, real and complex, through the C face: by bits, against records.py and the stored answers of zixy."""
import itertools
import struct

import draws
import face
import records
import stored
from calls import run

SEED = 20261120
TOP, FULL = 2**63, 2**64 - 1
PLUS_ZERO, LARGEST = 0, 0x7FEFFFFFFFFFFFFF
# Infinities, and NaNs that are quiet and not, with payloads
NOT_FINITE = [0x7FF0000000000000, 0xFFF0000000000000, 0x7FF8000000000000, 0xFFF8000000000000, 0x7FF0000000000001,
              0xFFF0000000000001, 0x7FF8000000001234, FULL, 0x7FFFFFFFFFFFFFFF, 0x7FF4DEADBEEF0001]
# Zero, the least and the largest subnormal, the least normal and the largest number, 1, 0.1, 2^53, 2^-53, 1e16
EDGES = [PLUS_ZERO, 1, 0x000FFFFFFFFFFFFF, 0x0010000000000000, LARGEST, 0x3FF0000000000000, 0x3FB999999999999A,
         0x4340000000000000, 0x3CA0000000000000, 0x4341C37937E08000]
EDGES += [bits | TOP for bits in EDGES]


def finite(rng):
    """The bits of a finite number: an end of the range, a small whole number, or any bits near 1."""
    kind = rng.randrange(4)
    if kind == 0:
        return rng.choice(EDGES)
    if kind == 1:
        return records.bits_of(float(rng.randint(-3, 3)))
    return rng.getrandbits(1) << 63 | rng.randint(1023 - 30, 1023 + 30) << 52 | rng.getrandbits(52)


def joining(rng, m, bra, ket):
    """(cre, ann) of a term that takes ket to bra."""
    still = ket & bra & face.word(rng, m, rng.choice((0.0, 0.3, 0.6)))
    return bra & ~ket | still, ket & ~bra | still


def float_call(parts, m, terms, coefficients, bra, ket):
    """The name and the arguments of a call: terms are (cre, ann), coefficients a list of bits for each part."""
    cre, ann = ([term[k] for term in terms] for k in (0, 1))
    return ("mat_elem_real", "mat_elem_complex")[parts - 1], m, cre, ann, *coefficients[:parts], bra, ket


def drawn_list(rng, m, n, bra, ket):
    """n terms, most of them joining, some repeated."""
    terms = []
    for _ in range(n):
        kind = rng.randrange(8)
        term = joining(rng, m, bra, ket) if kind < 5 else draws.term(rng, m, "dense")
        terms.append(rng.choice(terms) if terms and kind == 7 else term)
    return terms


def check_drawn_floats(calls):
    rng = calls.rng
    for _ in range(7600):
        m = rng.randint(1, 64)
        ket = face.word(rng, m, 0.5)
        bra = ket if rng.random() < 0.5 else face.word(rng, m, 0.5)
        terms = drawn_list(rng, m, rng.choice((0, 1, 1, 2, 3, 5, 9, 20)), bra, ket)
        coefficients = [[finite(rng) for _ in terms] for _ in "ri"]
        for parts in (1, 2):
            call = float_call(parts, m, terms, coefficients, bra, ket)
            calls.judge(f"{call[0]}: drawn lists, by bits", *call)


def check_one_joining(calls):
    """With exactly one joining term the answer is that coefficient signed, exactly, a zero coming out as plus zero."""
    rng = calls.rng
    plus, minus, beside = ((0, 0), 3), ((0, 3), 0), (4, 4)  # on ket 3: {|} to 3; {|0,1} to 0 with minus; {2|2} to Zero
    some = EDGES + [finite(rng) for _ in range(30)]
    for bits, (term, bra), place in itertools.product(some, (plus, minus), range(3)):
        terms = [beside] * place + [term] + [beside] * (2 - place)
        both = bits, bits ^ TOP
        coefficients = [[rng.choice(EDGES) if t == beside else value for t in terms] for value in both]
        expected = [value ^ (TOP if bra == 0 else 0) if value % TOP else PLUS_ZERO for value in both]
        for parts in (1, 2):
            call = float_call(parts, 3, terms, coefficients, bra, 3)
            value = struct.pack("<2Q", *(expected[:parts] + [PLUS_ZERO])[:2])
            got = calls.call(*call)
            answer = records.Answer([0] * 8, (value,))
            calls.tally.same("exactly one joining term: its coefficient, signed", got, answer, call)


def check_order(calls):
    """Sums that depend on the order of the terms and on one rounding for each."""
    lists = [1e16, 1.0, -1e16, 1.0, 2.0**53], [0.1, 0.2, -0.3, 1e300], [1e300, -1e300, 5e-324, 2.0**-53, -(2.0**-53)]
    for chosen in itertools.chain(*map(itertools.permutations, lists)):
        bits = [records.bits_of(number) for number in chosen]
        for parts in (1, 2):
            call = float_call(parts, 1, [(0, 0)] * len(bits), [bits, bits[::-1]], 0, 0)
            calls.judge("sums in the caller's order", *call)


def check_overflow(calls):
    """13 at the term that first makes a sum not finite: rounded to infinity, in either part, and not before."""
    rng = calls.rng
    ulp = 0x7CA0000000000000  # 2^971, one unit in the last place of the largest number
    half, below_half = 0x7C90000000000000, 0x7C8FFFFFFFFFFFFF
    stated = [  # coefficients, and the place of the refusal or None
        ([LARGEST, LARGEST], 1), ([LARGEST, half], 1), ([LARGEST, ulp], 1), ([LARGEST, PLUS_ZERO, half], 2),
        ([LARGEST, LARGEST, LARGEST | TOP], 1), ([LARGEST | TOP, half | TOP], 1), ([LARGEST, below_half], None),
        ([LARGEST, below_half, below_half], None), ([LARGEST, LARGEST | TOP, LARGEST], None),
        ([LARGEST | TOP, half, half | TOP], None),
    ]
    for (bits, place), before in itertools.product(stated, range(3)):
        terms = [(1, 1)] * before + [(0, 0)] * len(bits)  # {0|0} gives Zero on ket 0, and is not counted in the sum
        full = [rng.choice(EDGES) for _ in range(before)] + bits
        flat = [PLUS_ZERO] * len(terms)
        for parts, coefficients in ((1, [full]), (2, [full, flat]), (2, [flat, full]), (2, [full, full])):
            call = float_call(parts, 1, terms, coefficients, 0, 0)
            answer = calls.judge("sums that aren't finite: refusal 13 at the term", *call)
            assert answer.numbers[:3] == ([0, 0, 0] if place is None else [13, 1, place + before])


def check_not_finite(calls):
    """Coefficients that aren't finite, at terms that join and at others: 2 then 13 per term, before bra and ket."""
    rng = calls.rng
    for bits, place, joins in itertools.product(NOT_FINITE, range(4), (True, False)):
        terms = [(0, 0)] * place + [(0, 0) if joins else (1, 0)] + [(0, 0)] * 2
        good = [finite(rng) for _ in terms]
        bad = good[:place] + [bits] + good[place + 1:]
        for parts, coefficients in ((1, [bad]), (2, [bad, good]), (2, [good, bad]), (2, [bad, bad])):
            for bra, ket in ((0, 0), (2, 0), (0, 2)):
                call = float_call(parts, 1, terms, coefficients, bra, ket)
                answer = calls.judge("coefficients that aren't finite: refusal 13", *call)
                assert answer.numbers == [13, 1, place, 0, 0, 0, 0, 0]
            for at, far in itertools.product(range(len(terms)), ((2, 0), (0, 2))):
                call = float_call(parts, 1, terms[:at] + [far] + terms[at + 1:], coefficients, 2, 2)
                answer = calls.judge("words outside and coefficients not finite: by term, 2 before 13", *call)
                assert answer.numbers[:3] == ([2, 1, at] if at <= place else [13, 1, place])


def check_list_lengths(calls):
    """1 by m and by the lengths; 0 to 2,048 terms."""
    one = records.bits_of(1.0)
    for m, n, parts in itertools.product((0, 1, 64, 65, 66, 128, 2**32 + 1, TOP, FULL), (0, 2), (1, 2)):
        answer = calls.judge("mode counts: refusal 1", *float_call(parts, m, [(0, 0)] * n, [[one] * n] * 2, 0, 0))
        assert answer.numbers[:3] == ([0, 0, 0] if 1 <= m <= 64 else [1, 1, 0])
    for lengths in itertools.product((0, 1, 2), repeat=4):
        lists = [[0] * length for length in lengths]
        for name, args in (("mat_elem_real", lists[:3]), ("mat_elem_complex", lists)):
            answer = calls.judge("list lengths: refusal 1", name, 2, *args, 0, 0)
            assert answer.numbers[:3] == ([0, 0, 0] if len(set(lengths[:len(args)])) == 1 else [1, 1, 0])
    for n, parts in itertools.product((0, 2047, 2048, 2049, 5000), (1, 2)):
        answer = calls.judge("0 to 2,048 terms", *float_call(parts, 64, [(0, 0)] * n, [[one] * n] * 2, 7, 7))
        assert answer.numbers[:3] == ([0, 0, 0] if n <= 2048 else [1, 1, 0])
        assert n > 2048 or answer.lent[0][:8] == struct.pack("<d", n)


def check_list_words(calls):
    """2 by either word of a term; 12 for the bra and then the ket, before a sum that isn't finite."""
    for m, parts in itertools.product((1, 5, 63), (1, 2)):
        out = 1 << m
        for bra, ket, operand in ((out, 0, 3), (0, out, 4), (FULL, FULL, 3), (TOP, 0, 3), (0, TOP, 4)):
            call = float_call(parts, m, [(0, 0)] * 2, [[LARGEST] * 2] * 2, bra, ket)
            answer = calls.judge("bra and ket: refusal 12, before the sums", *call)
            assert answer.numbers[:3] == [12, operand, 0]
        for term, place in itertools.product(((out, 0), (0, out), (TOP, FULL)), range(3)):
            call = float_call(parts, m, [(0, 0)] * place + [term, (out, 0)], [[PLUS_ZERO] * (place + 2)] * 2, FULL, 0)
            answer = calls.judge("words of terms: refusal 2, before bra and ket", *call)
            assert answer.numbers[:3] == [2, 1, place]


# The stored answers of zixy


def stored_call(function, m, states, words):
    """The name and the arguments of a stored question."""
    rows = [[int(field, 16) for field in word.split(":")] for word in words]
    columns = ([row[k] for row in rows] for k in range(3 if function == "elem_real" else 4))
    ann, cre, *coefficients = columns
    return function.replace("elem", "mat_elem"), m, cre, ann, *coefficients, *(int(word, 16) for word in states)


def check_stored(calls):
    for (function, m, *states), fields, agrees, answer in stored.lines("elements"):
        if function == "proj":
            continue
        assert agrees
        call = stored_call(function, int(m), states, fields[0])
        calls.judge(f"{call[0]}: stored lists", *call)
        got = calls.call(*call)
        value = None if got.numbers[0] else got.lent[0]
        rust = struct.pack("<2Q", *([int(bits, 16) for bits in answer] + [PLUS_ZERO])[:2])
        calls.tally.same(f"{call[0]}: stored answers are the Rust's, by bits", value, rust, call)


run(SEED, (
    check_drawn_floats, check_one_joining, check_order, check_overflow, check_not_finite, check_list_lengths,
    check_list_words, check_stored,
))
