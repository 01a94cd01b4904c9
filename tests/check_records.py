#!/usr/bin/env python3
"""Records through the C face: the check, sums, adjoint, tests and stretches, against records.py, the specification's
examples and the stored answers of zixy."""
import itertools

import draws
import records
import rule
import stored
from calls import run

SEED = 20261117
TOP, FULL = 2**63, 2**64 - 1
ROOM = 32 + 24 * 2048
HEAVIEST = 2**60
NUMBERS = "is_hermitian", "conserves_particle_number", "max_n_body", "active_modes"
ONE, TWO = ("check", "adjoint", *NUMBERS, "block"), ("add", "sub")
OPERATORS = "add", "sub", "adjoint"
ASKED = {"hermitian": "is_hermitian", "conserves": "conserves_particle_number", "active": "active_modes"}


def length(calls, name, *args):
    """A length for the output: exactly right, a byte or a row short, longer, or none."""
    right = calls.expected(name, *args, ROOM).numbers[3]
    return max(0, calls.rng.choice((right, right, right - 1, right + 1, right - 24, right + 200, 0, 32)))


def judge_one(calls, test, name, a):
    """A call on one record. The stretch is asked for an annihilation word of the record, or near one."""
    more = []
    if name == "adjoint":
        more = [length(calls, name, a)]
    elif name == "block":
        words = [row[0] for row in records.decode(a)[1]] if records.header_is_right(a) else []
        more = [calls.rng.choice(words or [0]) ^ calls.rng.choice((0, 0, 0, 1, TOP))]
    return calls.judge(test, name, a, *more)


def judge_two(calls, test, name, a, b):
    return calls.judge(test, name, a, b, length(calls, name, a, b))


def judge_all(calls, test, a, *pairs):
    """Every call on one record, and sums and differences of pairs."""
    for name in ONE:
        judge_one(calls, test, name, a)
    for name in TWO:
        for pair in pairs:
            judge_two(calls, test, name, *pair)


# The specification's example, and drawn records


def check_example(calls):
    got = calls.call("check", records.EXAMPLE)
    calls.tally.same("the whole example: accepted", got, records.Answer([0, 0, 0, 0, 0, 2, 2, 2], ()), "")
    parts = records.encode(2, [(1, 1, 1)]), records.encode(2, [(2, 2, 1)])
    got = calls.call("sub", *parts, 80)
    calls.tally.same("the whole example: {0|0} minus {1|1}, byte for byte", got,
                     records.Answer([0, 0, 0, 80, 0, 0, 0, 0], (records.EXAMPLE,)), "")


def check_drawn(calls):
    """Thousands of records and of pairs, for every call."""
    rng = calls.rng
    for i in range(9200):
        m = rng.randint(1, 64)
        some = draws.rows(rng, m, rng.randint(0, 12))
        a = records.encode(m, draws.swapped_too(rng, some) if i % 3 == 0 else some)
        for name in ONE:
            judge_one(calls, f"{name}: drawn records", name, a)
        b = records.encode(m, draws.relative(rng, m, some))
        for name in TWO:
            judge_two(calls, f"{name}: drawn records", name, records.encode(m, some), b)


def check_same_memory(calls):
    """A + A and A - A, both records in the same bytes."""
    for _ in range(100):
        m = calls.rng.randint(1, 64)
        a = records.encode(m, draws.rows(calls.rng, m, 9))
        for name in TWO:
            judge_two(calls, "a record and itself", name, a, a)


def check_lengths(calls):
    """Outputs exactly right, a byte short, longer, and none."""
    rng = calls.rng
    for _ in range(150):
        m = rng.randint(1, 64)
        some = draws.rows(rng, m, rng.randint(0, 9))
        a, b = records.encode(m, some), records.encode(m, draws.relative(rng, m, some))
        for name, args in (("add", (a, b)), ("sub", (a, b)), ("adjoint", (a,))):
            right = calls.expected(name, *args, ROOM).numbers[3]
            calls.judge(f"{name}: output exactly right", name, *args, right)
            calls.judge(f"{name}: output a byte short", name, *args, right - 1)
            for out_len in (0, 31, 32, right + 1, right + 1000, ROOM):
                calls.judge(f"{name}: other outputs", name, *args, out_len)


# Refusals


def good_record(calls, least=2):
    """(m, rows) with some rows, of which no coefficient is large."""
    while True:
        m = calls.rng.choice((1, 2, 3, 5, 16, 33, 63, 64, calls.rng.randint(1, 64)))
        some = draws.rows(calls.rng, m, 8, "dense", small=True)
        if len(some) >= least:
            return m, some


def judge_damaged(calls, number, place, m, wrong):
    """A damaged record as the one record, the first and the second of two; then beside another mode count."""
    test = f"damaged records: refusal {number}"
    for name in ONE:
        answer = judge_one(calls, test, name, wrong)
        assert name == "block" or answer.numbers == [number, 1, place, 0, 0, 0, 0, 0], (number, place, wrong.hex())
    good, other = records.encode(m, draws.rows(calls.rng, m, 3)), records.encode(m % 64 + 1, [])
    for name in TWO:
        for operand, a, b in ((1, wrong, good), (2, good, wrong), (1, wrong, wrong), (2, other, wrong), (1, wrong, other)):
            answer = judge_two(calls, test, name, a, b)
            assert answer.numbers == [number, operand, place, 0, 0, 0, 0, 0]


def check_damaged(calls):
    for i in range(12):
        m, some = good_record(calls)
        if i < 3:
            for wrong in draws.damaged_headers(calls.rng, records.encode(m, some)):
                judge_damaged(calls, 1, 0, m, wrong)
        for number, place, rows in draws.damaged_terms(calls.rng, m, some):
            judge_damaged(calls, number, place, m, records.encode(m, rows))
        for number, place, rows in draws.two_faults(calls.rng, m, some):
            judge_damaged(calls, number, place, m, records.encode(m, rows))


def check_both_damaged(calls):
    """Both records wrong in different ways: the first one counts."""
    for _ in range(60):
        m, some = good_record(calls)
        wrong = [records.encode(m, rows) for _, _, rows in draws.damaged_terms(calls.rng, m, some)]
        wrong += list(draws.damaged_headers(calls.rng, records.encode(m, some)))[:8]
        a, b = calls.rng.sample(wrong, 2)
        for name in TWO:
            judge_two(calls, "both records damaged: the first counts", name, a, b)


def check_flips(calls):
    """Every byte of the example turned over, one at a time, and every bit of its header."""
    example = records.EXAMPLE
    masks = [(at, 255) for at in range(80)] + [(at, 1 << bit) for at in range(32) for bit in range(8)]
    for at, mask in masks:
        wrong = example[:at] + bytes([example[at] ^ mask]) + example[at + 1:]
        test = "a byte or bit of the header turned over" if at < 32 else "a byte of the columns turned over"
        judge_all(calls, test, wrong, (wrong, example), (example, wrong))


def check_modes(calls):
    """m = 0, 1, 64, 65, and two mode counts."""
    for m in (0, 1, 2, 63, 64, 65, 128, 2**32 - 1):
        for rows in ([], [(0, 0, 1)], [(0, 1, -2), (1, 1, 3)]):
            a = records.encode(m, rows)
            judge_all(calls, "m = 0, 1, 64, 65 and others", a, (a, a))
            for name in TWO:
                for other in (1, 64, 65):
                    judge_two(calls, "two mode counts: refusal 6", name, a, records.encode(other, []))


def check_top_modes(calls):
    """Words with bit 63 set ascend unsigned, and not signed."""
    columns = [0, 1, TOP - 1, TOP, TOP + 1, FULL]
    up = [(ann, cre, 1 + i) for i, (ann, cre) in enumerate((a, c) for a in columns for c in columns)]
    a = records.encode(64, up)
    halves = [[records.encode(64, sorted(calls.rng.sample(up, calls.rng.randint(0, 12)))) for _ in "ab"] for _ in range(50)]
    judge_all(calls, "words with bit 63, ascending", a, *halves)
    for ann in columns + [2, TOP - 2, FULL - 1]:
        calls.judge("words with bit 63, ascending", "block", a, ann)
    signed = sorted(up, key=lambda row: [word - (word >> 63 << 64) for word in row[:2]])
    for wrong in (signed, [(0, TOP, 1), (0, 1, 1)], [(TOP, 0, 1), (1, 0, 1)]):
        wrong = records.encode(64, wrong)
        judge_all(calls, "words with bit 63, not ascending", wrong, (a, wrong))


# Sizes and weights at their ends


def check_sizes(calls):
    """Sums at exactly 2,048 and 2,049 terms, records of 0 and 2,048."""
    rows = draws.many(calls.rng, 64, 2049)
    full, odd, even = rows[:2048], rows[0::2], rows[1::2]  # 2,048, 1,025 and 1,024
    opposite = [(ann, cre, -c) for ann, cre, c in rows]
    pairs = {
        "2,048 terms": [(full, []), ([], full), (rows[:1024], rows[1024:2048]), (odd[:1024], even), (full[1:], full[:1])],
        "2,049 terms: refusal 10": [(full, rows[2048:]), (rows[1:], rows[:1]), (odd, even), (even, odd)],
        "terms that cancel or not": [(full, rows[7:8]), (full, opposite[7:8] + rows[2048:]), (full, opposite[:2048]),
                                     (full, rows[7:8] + rows[2048:]), (full, full)],
    }
    for test, lists in pairs.items():
        for name, (left, right), out_len in itertools.product(TWO, lists, (0, ROOM - 1, ROOM)):
            answer = calls.judge(f"sums of {test}", name, records.encode(64, left), records.encode(64, right), out_len)
            assert test != "2,048 terms" or answer.numbers[0] == (0 if out_len == ROOM else 11)
            assert "2,049" not in test or answer.numbers[0] == 10
    for some in ([], rows[:1], rows[:2047], full, rows):
        a = records.encode(64, some)
        judge_all(calls, "records of 0 and 2,048 terms", a, (a, a))
        for out_len in (len(a), max(0, len(a) - 1), ROOM):
            calls.judge("records of 0 and 2,048 terms", "adjoint", a, out_len)


def check_weights(calls):
    """The weight at exactly 2^60 and one above, and sums of magnitudes that pass 64 bits."""
    half = HEAVIEST // 2
    fits = [[HEAVIEST], [-HEAVIEST], [HEAVIEST - 1, -1], [1, HEAVIEST - 1], [half, half], [2**49] * 2048, [-2**58] * 4]
    passes = [[HEAVIEST + 1], [-HEAVIEST - 1], [HEAVIEST, 1], [-1, HEAVIEST], [half + 1, -half], [2**61], [2**63 - 1],
              [-2**63], [-2**63, -2**63], [2**63 - 1, 2**63 - 1, 2], [2**60] * 16, [2**53] * 2048, [-2**62] * 4,
              [2**49] * 2047 + [2**49 + 1], [-2**63] * 2048, [2**63 - 1, -2**63, 1]]
    none = records.encode(64, [])
    for coefficients in fits + passes:
        a = records.encode(64, [(i, 0, c) for i, c in enumerate(coefficients)])
        test = "weight exactly 2^60" if coefficients in fits else "weight above 2^60: refusal 5"
        assert (records.refusal(a, 1) is None) == (coefficients in fits)
        judge_all(calls, test, a, (a, none), (none, a))


def check_result_weights(calls):
    """The result's weight at 2^60 and above; 10 before 9, 9 before 11."""
    half = HEAVIEST // 2
    one = lambda word, c: records.encode(64, [(word, 0, c)])
    for c, d in ((HEAVIEST - 1, 1), (HEAVIEST, 1), (half, half), (half, half + 1), (HEAVIEST, HEAVIEST),
                 (-HEAVIEST, -HEAVIEST), (HEAVIEST, -HEAVIEST), (-HEAVIEST, -1), (HEAVIEST, -1)):
        for word in (0, 1):  # like terms, and different ones
            for name in TWO:
                for out_len in (0, 55, 56, 79, 80):
                    calls.judge("weight of the result at 2^60", name, one(0, c), one(word, d), out_len)
    for name in TWO:
        assert calls.judge("9 before 11", name, one(0, HEAVIEST), one(1, 1), 0).numbers[0] == 9
    words = [row[:2] for row in draws.many(calls.rng, 64, 2049)]
    for terms in (words, words[:2048]):
        left, right = ([(*term, 2**49) for term in some] for some in (terms[0::2], terms[1::2]))
        pair = [records.encode(64, with_weight(some, HEAVIEST)) for some in (left, right)]
        for name in TWO:
            for out_len in (0, ROOM):
                answer = calls.judge("10 before 9 and 11, and 9 at 2,048 terms", name, *pair, out_len)
                assert answer.numbers[0] == (10 if terms is words else 9)


def with_weight(rows, weight):
    """The rows, positive, with the first coefficient raised to reach a weight."""
    (ann, cre, c), *rest = rows
    return [(ann, cre, c + weight - records.weight(rows)), *rest]


# Larger records: the order of an adjoint, stretches


def check_large(calls):
    rng = calls.rng
    shapes = {
        "drawn": lambda n: draws.many(rng, 64, n),
        "one annihilation word": lambda n: draws.many(rng, 64, n, same=rng.getrandbits(64)),
        "order turned round by swapping": lambda n: [(i, n - i, 1 + i % 3) for i in range(n)],
        "order kept by swapping": lambda n: [(i, i, 1) for i in range(n)],
        "few annihilation words": lambda n: sorted((i % 7, i, 1 - 2 * (i % 2)) for i in range(n)),
        "few creation words": lambda n: sorted((i, i % 7, 1 - 2 * (i % 2)) for i in range(n)),
    }
    for shape in shapes.values():
        for n in (33, 500, 2048):
            some = shape(n)
            for rows in (some, draws.swapped_too(rng, some[:n // 2])):
                a = records.encode(64, rows)
                for name in NUMBERS:
                    judge_one(calls, "records of 33 to 2,048 terms", name, a)
                calls.judge("adjoints of 33 to 2,048 terms", "adjoint", a, len(a))
                check_stretches(calls, a, rows)


def check_stretches(calls, a, rows):
    """The first, the last and some annihilation words, and words beside them."""
    words = sorted({row[0] for row in rows})
    chosen = {words[0], words[-1], *calls.rng.sample(words, min(len(words), 4))}
    for word in sorted({(near + step) % 2**64 for near in chosen for step in (-1, 0, 1)}):
        calls.judge("stretches of records of 33 to 2,048 terms", "block", a, word)


def check_every_stretch(calls):
    """Small records: every annihilation word on 3 modes, and words outside."""
    for _ in range(200):
        m = calls.rng.randint(1, 3)
        a = records.encode(m, draws.rows(calls.rng, m, calls.rng.randint(0, 20), small=True))
        for word in (*range(8), 8, TOP, FULL):
            calls.judge("stretches: every word on 3 modes, and words outside", "block", a, word)


# Ranks


def check_ranks(calls):
    """Every number of annihilations with every number of creations: the larger of both, of one term and of two."""
    test, sizes = "every number of creations and annihilations", list(itertools.product(range(65), repeat=2))
    other = calls.rng.sample(sizes, len(sizes))
    for one, two in zip(sizes, other):
        terms = [tuple(draws.of_size(calls.rng, size) for size in pair) for pair in (one, two)]
        for some in (terms[:1], sorted(set(terms))):
            a = records.encode(64, [(*words, draws.coefficient(calls.rng)) for words in some])
            answer = calls.judge(f"max_n_body: {test}", "max_n_body", a)
            largest = max(one) if len(some) == 1 else max(*one, *two)
            calls.tally.same(f"max_n_body: {test}: by hand", answer.numbers, [0, 0, 0, 0, 0, largest, 0, 0], (one, two))


# The stored answers of zixy


def halved(rows):
    """zixy's rule: creations and annihilations, halved, rounded down; the largest, 0 for no terms."""
    return max(((rule.size(ann) + rule.size(cre)) // 2 for ann, cre, _ in rows), default=0)


def as_stored(got, name):
    """The library's answer in the form of the stored one: rows, or a number."""
    if got.numbers[0]:
        return None
    return records.decode(got.lent[0])[1] if name in OPERATORS else got.numbers[5]


def stored_answer(name, words):
    if name in OPERATORS:
        return stored.rows(words)
    if name in ("is_hermitian", "conserves_particle_number"):
        return {"true": 1, "false": 0}[words[0]]
    return int(words[0], 16 if name == "active_modes" else 10)


def check_stored(calls):
    for (function, m), operators, agrees, answer in stored.lines("records"):
        name = ASKED.get(function, function)
        args = [records.encode(int(m), stored.rows(words)) for words in operators] + [ROOM] * (name in OPERATORS)
        calls.judge(f"{name}: stored operators", name, *args)
        got, rust = as_stored(calls.call(name, *args), name), stored_answer(name, answer)
        about = f"{function} {m} {operators}"
        calls.judge_stored(name, got, rust, agrees, about)
        if name == "max_n_body":
            calls.tally.same("max_n_body: the Rust's stored answers are halves", rust, halved(stored.rows(operators[0])), about)


run(SEED, (
    check_example, check_drawn, check_same_memory, check_lengths, check_damaged, check_both_damaged, check_flips,
    check_modes, check_top_modes, check_sizes, check_weights, check_result_weights, check_large,
    check_every_stretch, check_ranks, check_stored,
))
