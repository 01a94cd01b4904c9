#!/usr/bin/env python3
"""Products, commutators and anticommutators through the C face, against records.py, case 14 and the stored answers of
zixy."""
import functools
import itertools
import signal

import draws
import records
import rule
import stored
from calls import run

SEED = 20261118
FULL = 2**64 - 1
ROOM = 32 + 24 * 2048
WORK = 65520
HEAVIEST = 2**60
CALLS = "mul", "commutator", "anticommutator"
PLENTY = 24 << 14
LONGEST = 20  # seconds that refusals of huge products may take together

rule.multiply = functools.lru_cache(1 << 15)(rule.multiply)  # the same pairs come again with other lengths


def needed(calls, name, a, b):
    """The bytes of work and of output that a call needs, as far as it is not refused for another reason."""
    numbers = calls.expected(name, a, b, PLENTY, ROOM).numbers
    return 24 * numbers[4], numbers[3]


def judge(calls, test, name, a, b, *lengths):
    """A call, with lengths for work and output that are right, short or longer unless they are given."""
    if not lengths:
        work, out = needed(calls, name, a, b)
        lengths = [max(0, right + calls.rng.choice((0, 0, 0, 0, -1, 1, 24, 500))) for right in (work, out)]
    return calls.judge(test, name, a, b, *lengths)


# Case 14, and drawn operators


def check_case_14(calls):
    a, b = records.encode(2, [(2, 1, 1)]), records.encode(2, [(1, 2, 1)])  # {0|1} and {1|0}
    given = [0, 0, 0, 80, 4, 0, 0, 0]
    for work, out, numbers, left in [
        (96, 80, given, records.EXAMPLE), (97, 83, given, records.EXAMPLE + bytes(3)),
        (95, 80, [7, 0, 0, 0, 0, 0, 0, 0], bytes(80)), (96, 79, [11, 0, 0, 0, 0, 0, 0, 0], bytes(79)),
        (0, 0, [7, 0, 0, 0, 0, 0, 0, 0], b""),
    ]:
        got = calls.call("commutator", a, b, work, out)
        expected = records.Answer(numbers, (bytes(work), left))
        calls.tally.same("case 14: the bytes, the branches, the lengths", got, expected, (work, out))


def drawn_pair(rng):
    """Two operators of up to 5 terms; in half of the pairs all terms are on the same few modes."""
    while True:
        m = rng.randint(1, 64)
        near = rng.sample(range(m), min(m, 6)) if rng.random() < 0.5 else None
        kinds = ("few", "body") if near else ("few", "body", "dense")
        left, right = (draws.rows(rng, m, rng.randint(0, 5), rng.choice(kinds), rng.random() < 0.8, near) for _ in "ab")
        orders = (left, right), (right, left)
        if all(common(*order) <= 6 for order in orders) and sum(records.branch_count(*order) for order in orders) <= 200:
            return records.encode(m, left), records.encode(m, right)


def common(left, right):
    return max((rule.size(la & rc) for la, _, _ in left for _, rc, _ in right), default=0)


def check_drawn(calls):
    for i in range(6800):
        a, b = drawn_pair(calls.rng)
        for name in CALLS:
            judge(calls, f"{name}: drawn operators", name, a, b)
            if i % 10 == 0:
                judge(calls, f"{name}: an operator and itself", name, a, a)


def check_lengths(calls):
    """Work and output exactly right, and each a byte short, empty, and longer."""
    for _ in range(60):
        a, b = drawn_pair(calls.rng)
        for name in CALLS:
            work, out = needed(calls, name, a, b)
            if not out:
                continue  # refused whatever the lengths
            calls.judge("work and output exactly right", name, a, b, work, out)
            if work:
                calls.judge("work a byte short: refusal 7", name, a, b, work - 1, out)
                calls.judge("no work: refusal 7", name, a, b, 0, out)
            calls.judge("output a byte short: refusal 11", name, a, b, work, out - 1)
            calls.judge("longer work and output", name, a, b, WORK, ROOM)


# Refusals


def check_damaged(calls):
    """1 to 6 of both records, before anything of the product."""
    for i in range(4):
        m = calls.rng.choice((1, 2, 7, 33, 64))
        good = draws.rows(calls.rng, m, 6, "dense", small=True)
        while len(good) < 2:
            good = draws.rows(calls.rng, m, 6, "dense", small=True)
        right = records.encode(m, good)
        wrong = [(1, 0, record) for record in draws.damaged_headers(calls.rng, right)] if i < 2 else []
        wrong += [(number, place, records.encode(m, rows)) for number, place, rows in
                  [*draws.damaged_terms(calls.rng, m, good), *draws.two_faults(calls.rng, m, good)]]
        other = records.encode(m % 64 + 1, [])
        for (number, place, record), name in itertools.product(wrong, CALLS):
            for operand, a, b in ((1, record, right), (2, right, record), (1, record, record), (2, other, record)):
                lengths = calls.rng.choice((0, WORK)), calls.rng.choice((0, ROOM))
                answer = calls.judge(f"damaged records: refusal {number}", name, a, b, *lengths)
                assert answer.numbers == [number, operand, place, 0, 0, 0, 0, 0]
        for name, (a, b) in itertools.product(CALLS, ((right, other), (other, right))):
            assert calls.judge("two mode counts: refusal 6", name, a, b, 0, 0).numbers[0] == 6


def one(word, c, m=64):
    """A record of one term that creates."""
    return records.encode(m, [(0, word, c)])


def check_weights(calls):
    """8: the product of the weights at exactly 2^60 and above, also where it passes 64 bits; 8 before 7."""
    fits = [(2**30, 2**30), (1, HEAVIEST), (HEAVIEST, 1), (-2**59, 2), (3, HEAVIEST // 3)]
    passes = [(2**30 + 1, 2**30), (2, HEAVIEST), (HEAVIEST, 2), (HEAVIEST, HEAVIEST), (2**32, 2**32), (-2**59, -2**5),
              (2**60, 2**4), (3, HEAVIEST // 3 + 1), (2**40, -2**40), (HEAVIEST - 1, HEAVIEST - 1)]
    for x, y in fits + passes:
        for a, b in ((one(1, x), one(2, y)), (one(1, x), one(1, y)), (spread(x, 5), one(0, y)), (one(0, x), spread(y, 7))):
            for name in CALLS:
                answer = judge(calls, "weights that multiply to 2^60 and above", name, a, b, 0, 0)
                assert (answer.numbers[0] == 8) == ((x, y) in passes)
                judge(calls, "weights that multiply to 2^60 and above", name, a, b, WORK, ROOM)
    none = records.encode(64, [])
    for name in CALLS:
        for a, b in ((one(0, HEAVIEST), none), (none, one(0, -HEAVIEST)), (none, none)):
            assert calls.judge("no terms: no branches, no work", name, a, b, 0, 32).numbers[:5] == [0, 0, 0, 32, 0]


def spread(weight, n):
    """A record of n terms with coefficients of that sum."""
    sign, weight = (1 if weight > 0 else -1), abs(weight)
    parts = [weight // n] * (n - 1)
    parts = [part for part in [*parts, weight - sum(parts)] if part]
    return records.encode(64, [(0, 1 << i, sign * part) for i, part in enumerate(parts)])


def check_result_weights(calls):
    """9: the weight of the exact result, where the weights multiply to no more than 2^60; 9 before 11."""
    half = HEAVIEST // 2
    ann = records.encode(2, [(1, 0, 1)])  # {|0}
    for j in (0, 1, 2):  # half {0|} + j {1|}: the product's weight is 2^60 + j
        b = records.encode(2, [(0, 1, half)] + [(0, 2, j)] * (j > 0))
        for work, out in ((72, 104), (72, 0), (71, 104), (48, 80)):
            calls.judge("weight of the result at 2^60", "mul", ann, b, work, out)
        assert calls.judge("weight of the result at 2^60", "mul", ann, b, 72, 0).numbers[0] == (9 if j else 11)
    for x in (2**29, 2**30):  # {|0,1} times {0,1|}: four rows
        a, b = records.encode(2, [(3, 0, x)]), records.encode(2, [(0, 3, -x)])
        for name in CALLS:
            for out in (0, ROOM):
                calls.judge("weight of the result at 2^60", name, a, b, WORK, out)


def common_words(n):
    """Words of n of the 64 modes, all different: all modes without 64 - n of them."""
    return (FULL & ~sum(1 << p for p in gone) for gone in itertools.combinations(range(64), 64 - n))


def check_huge(calls):
    """Branch counts of 2^58 and above, also sums that pass 64 bits, refused with 7 at once."""
    signal.alarm(LONGEST)  # ends this program if a call multiplies them out
    creates = records.encode(64, [(0, FULL, 1)])
    cases = [("b = 64: refusal 7", [FULL])]
    for b in range(58, 64):
        for n in (1, 2, 1 << 64 - b, (1 << 64 - b) + 1):
            cases.append(("b from 58 to 63: refusal 7", sorted(itertools.islice(common_words(b), n))))
    cases.append(("b from 58 to 63: refusal 7", sorted(itertools.islice(common_words(62), 2000))))
    for test, words in cases:
        removes = records.encode(64, [(word, 0, 1) for word in words])
        for name, work in itertools.product(CALLS, (0, 24, WORK)):
            assert calls.judge(test, name, removes, creates, work, ROOM).numbers[0] == 7
        for name in ("commutator", "anticommutator"):
            assert calls.judge(test, name, creates, removes, WORK, ROOM).numbers[0] == 7
    signal.alarm(0)


def check_empty(calls):
    """Empty pairs are not counted, however many modes they have in common."""
    for p in range(64):
        left = records.encode(64, [(FULL & ~(1 << p), 1 << p, 3)])
        right = records.encode(64, [(0, FULL, 2)])
        answer = calls.judge("empty pairs: no branches, no work", "mul", left, right, 0, 32)
        assert answer.numbers == [0, 0, 0, 32, 0, 0, 0, 0]
    for word in range(8):
        a = records.encode(3, [(0, word, 1)])
        for name in CALLS:
            judge(calls, "empty pairs: no branches, no work", name, a, a)


# Sizes


def check_sizes(calls):
    """Results of exactly 2,048 and 2,049 terms."""
    rng = calls.rng
    identity = records.encode(64, [(0, 0, 1)])
    full = records.encode(64, draws.many(rng, 64, 2048))
    for name in CALLS:
        for pair in ((full, identity), (identity, full)):
            work = 24 * 2048 * (1 if name == "mul" else 2)
            for lengths in ((work, ROOM), (work, ROOM - 1), (work - 1, ROOM)):
                calls.judge("results of 2,048 terms", name, *pair, *lengths)
    high = [(ann << 2, cre << 2, c) for ann, cre, c in draws.many(rng, 62, 1024)]  # on modes 2 to 63
    for terms, others, test in (([(0, 0), (0, 1)], 1024, "results of 2,048 terms"),
                                ([(0, 0), (0, 1), (1, 0)], 683, "results of 2,049 terms: refusal 10")):
        pair = records.encode(64, [(*term, 1) for term in terms]), records.encode(64, high[:others])
        for a, b in (pair, pair[::-1]):
            work = 24 * len(terms) * others
            for lengths in ((work, ROOM), (work, 0), (work - 1, ROOM)):
                answer = calls.judge(test, "mul", a, b, *lengths)
                assert answer.numbers[0] == (7 if lengths[0] < work else 10 if others == 683 else 0 if lengths[1] else 11)


def ladder_pair(b, more=0, c=1):
    """{|0..b-1} times {0..b-1|}, and so many further creations on the right: 2^b rows, and one for each of these."""
    word = (1 << b) - 1
    further = [(0, 1 << 30 + i, c) for i in range(more)]
    return records.encode(64, [(word, 0, c)]), records.encode(64, [(0, word, c), *further])


def check_branches(calls):
    """Pairs with 0 to 12 branching modes; results of 2,048 rows and more; 7 before 10, 10 before 9 and 11."""
    for b, name in itertools.product(range(13), CALLS):
        work = 24 * (2**b + (name != "mul"))  # the other order has one row
        for pair in (ladder_pair(b), ladder_pair(b)[::-1])[:1 if name == "mul" else 2]:
            for lengths in ((work, ROOM), (work - 1, ROOM)):
                answer = calls.judge("0 to 12 branching modes", name, *pair, *lengths)
                assert answer.numbers[0] == (7 if lengths[0] < work else 10 if b == 12 else 0)
    for b, more, number in ((10, 0, 9), (11, 0, 9), (11, 1, 10), (12, 0, 10)):
        work = 24 * (2**b + more)
        light, heavy = ladder_pair(b, more, 2**28), ladder_pair(b, more, 2**30 + 1)
        for out in (0, ROOM):
            assert calls.judge("10 before 9 and 11", "mul", *light, work, out).numbers[0] == number
        assert calls.judge("7 before 10, 9 and 11", "mul", *light, work - 1, 0).numbers[0] == 7
        assert calls.judge("8 before 7", "mul", *heavy, 0, 0).numbers[0] == 8
    for more in (0, 1):
        answer = calls.judge("2,048 and 2,049 rows", "mul", *ladder_pair(11, more), 24 * (2048 + more), ROOM)
        assert answer.numbers[0] == (10 if more else 0)


def check_common(calls):
    """Pairs of terms with up to 12 common modes, of which up to 6 branch, and further modes around."""
    rng = calls.rng
    for number, b in itertools.product(range(13), range(7)):
        if b > number:
            continue
        modes = rng.sample(range(64), number + 8)
        words = [0, 0, 0, 0]  # L's creations and annihilations, R's creations and annihilations
        for i, p in enumerate(modes):
            inside = (1, 2) if i < b else rng.choice(((0, 1, 2), (1, 2, 3), (0, 1, 2, 3)))
            for k in inside if i < number else [rng.randrange(4)]:
                words[k] |= 1 << p
        a, c = records.encode(64, [(words[1], words[0], 3)]), records.encode(64, [(words[3], words[2], -5)])
        for name in CALLS:
            judge(calls, "up to 12 common modes", name, a, c, WORK, ROOM)


# Terms that join and cancel


def number_operator(m):
    return records.encode(m, [(1 << p, 1 << p, 1) for p in range(m)])


def check_cancelling(calls):
    """Commutators without terms, though they have branches; anticommutators likewise."""
    rng = calls.rng
    for _ in range(40):
        m = rng.randint(1, 16)
        h = records.encode(m, draws.rows(rng, m, 8, "body", small=True))
        diagonal = [records.encode(m, on_diagonal(draws.rows(rng, m, 5, "few", small=True))) for _ in "ab"]
        for pair in ((h, h), (h, number_operator(m)), (number_operator(m), h), diagonal):
            answer = judge(calls, "commutators that cancel to nothing", "commutator", *pair, WORK, ROOM)
            assert answer.numbers[3] == 32 and not records.decode(answer.lent[1])[1]
        creations = [records.encode(m, [(0, 1 << p, rng.choice((-2, 3))) for p in range(m)]) for _ in "ab"]
        answer = judge(calls, "anticommutators that cancel to nothing", "anticommutator", *creations, WORK, ROOM)
        assert answer.numbers[3] == 32


def on_diagonal(rows):
    """Terms that create what they annihilate."""
    return records.joined((ann, ann, c) for ann, _, c in rows)


def check_large(calls):
    """Two-body operators of 16 and 24 terms on 8 to 64 modes: hundreds of rows, many of them alike."""
    for m, n in ((8, 24), (16, 24), (32, 16), (64, 16)):
        a, b = (records.encode(m, two_body(calls.rng, m, n)) for _ in "ab")
        for name in CALLS:
            judge(calls, "two-body operators of 16 and 24 terms", name, a, b, WORK, ROOM)
            judge(calls, "two-body operators of 16 and 24 terms", name, a, b)


def check_keys(calls):
    """Rows of which most are {w|w} for one w, all 64 modes or not: the sort parts equal ones off by the next key, and the last
    key has none."""
    for whole in (FULL, FULL >> 1, FULL - 1):
        terms = sorted((whole & ~(1 << p),) * 2 + (1 + p % 3,) for p in range(1, 25))
        both = records.encode(64, terms)
        for name in CALLS:
            judge(calls, "rows of which most have one key", name, both, both, 24 << 11, ROOM)


def two_body(rng, m, n):
    words = lambda: sum(1 << p for p in rng.sample(range(m), 2))
    return sorted((*term, rng.choice((-3, -1, 1, 2))) for term in {(words(), words()) for _ in range(n)})


def check_one_workspace(calls):
    """Calls, refused and not, on one work and one output that are handed on as they were left."""
    calls.workspace = {}
    for i in range(600):
        a, b = drawn_pair(calls.rng)
        if i % 7 == 3:
            b = b[:-1] + bytes([b[-1] ^ 128])
        judge(calls, "one workspace for all", calls.rng.choice(CALLS), a, b, *((600, 400) if i % 2 else (WORK, ROOM)))
    calls.workspace = None


# The stored answers of zixy


def check_stored(calls):
    for (name, m), operators, agrees, answer in stored.lines("products"):
        a, b = (records.encode(int(m), stored.rows(words)) for words in operators)
        judge(calls, f"{name}: stored operators", name, a, b)
        got = calls.call(name, a, b, WORK, ROOM)
        rows = None if got.numbers[0] else records.decode(got.lent[1])[1]
        rust, about = stored.rows(answer), f"{name} {m} {operators}"
        calls.judge_stored(name, rows, rust, agrees, about)


run(SEED, (
    check_case_14, check_drawn, check_lengths, check_damaged, check_weights, check_result_weights, check_huge,
    check_empty, check_sizes, check_branches, check_common, check_cancelling, check_large, check_keys,
    check_one_workspace, check_stored,
))
