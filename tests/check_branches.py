#!/usr/bin/env python3
"""The branches of two records' products through the C face, against records.py, and against the calls that need the work."""
import itertools

import draws
import records
from calls import run

SEED = 20261215
FULL = 2**64 - 1
ROOM = 32 + 24 * 2048
CEILING = 2**63 // 24  # the most branches whose rows take no more than 2^63 bytes
DRAWN = 12000


def drawn_pair(rng):
    """Two operators of up to 6 terms, often on the same few modes; one pair in four of dense words."""
    m = rng.randint(1, 64)
    near = rng.sample(range(m), min(m, 8)) if rng.random() < 0.4 else None
    kind = rng.choice(("few", "body") if near else ("few", "body", "dense", "dense"))
    return tuple(records.encode(m, draws.rows(rng, m, rng.randint(0, 6), kind, True, near)) for _ in "ab")


def check_drawn(calls):
    for i in range(DRAWN):
        a, b = drawn_pair(calls.rng)
        calls.judge("drawn operators", "branches", a, b)
        if i % 8 == 0:
            calls.judge("an operator and itself", "branches", a, a)


def check_damaged(calls):
    """1 to 5 of each record, the first before the second, and 6."""
    for m in (1, 7, 64):
        good = []
        while len(good) < 2:
            good = draws.rows(calls.rng, m, 6, "dense", small=True)
        right, other = records.encode(m, good), records.encode(m % 64 + 1, [])
        wrong = [(1, 0, record) for record in draws.damaged_headers(calls.rng, right)]
        wrong += [(number, place, records.encode(m, rows)) for number, place, rows in
                  [*draws.damaged_terms(calls.rng, m, good), *draws.two_faults(calls.rng, m, good)]]
        for number, place, record in wrong:
            for operand, a, b in ((1, record, right), (2, right, record), (1, record, record), (2, other, record)):
                answer = calls.judge(f"damaged records: refusal {number}", "branches", a, b)
                assert answer.numbers == [number, operand, place, 0, 0, 0, 0, 0]
        for a, b in ((right, other), (other, right)):
            assert calls.judge("two mode counts: refusal 6", "branches", a, b).numbers[0] == 6


def annihilating(sizes):
    """Terms {c|w} of so many modes, c the lowest of them: on the left of all creations 2^(size - 1) rows, on the right none."""
    return sorted(((1 << size) - 1 << at, 1 << at, 1) for at, size in sizes)


def check_ceiling(calls):
    """Sums of exactly the ceiling, of one less and of one more, in one order and in both; and far above it."""
    creates = records.encode(64, [(0, FULL, 1)])
    quarters = [(k % 5, 2 * k + 1) for k in range(30)]  # 4^0 to 4^29 rows: the ceiling is their sum
    assert CEILING == sum(4**k for k in range(30))
    both = [(0, 0, 1), *annihilating([(9, 1), (11, 2), *quarters[2:]])]  # {|} has a row in each order
    for rows, forward, backward in [
        (annihilating(quarters), CEILING, 0), (annihilating(quarters[1:]), CEILING - 1, 0), (both, CEILING - 1, 1),
        (annihilating([*quarters, (7, 1)]), None, None), ([(0, 0, 1), *annihilating(quarters[1:])], None, None),
    ]:
        a = records.encode(64, sorted(rows))
        told = [7, 0, 0, 0, 0, 0, 0, 0] if forward is None else [0, 0, 0, 0, forward, backward, 0, 0]
        turned = told[:4] + told[5:3:-1] + told[6:]
        for pair, numbers in (((a, creates), told), ((creates, a), turned)):
            answer = calls.judge("the rows take 2^63 - 8 bytes, or more", "branches", *pair)
            assert answer.numbers == numbers
    for size, n in itertools.product((58, 59, 60, 63, 64), (1, 2, 16, 2000)):
        words = sorted(itertools.islice((FULL & ~sum(1 << p for p in gone)
                                         for gone in itertools.combinations(range(64), 64 - size)), n))
        a = records.encode(64, [(word, 0, 1) for word in words])
        calls.judge("58 to 64 branching modes", "branches", a, creates)
        calls.judge("58 to 64 branching modes", "branches", creates, a)


def check_sizes(calls):
    """No terms; 2,048 terms, with one and with few."""
    none, one = records.encode(64, []), records.encode(64, [(0, 0, 5)])
    full = records.encode(64, draws.many(calls.rng, 64, 2048))
    few = records.encode(64, draws.rows(calls.rng, 64, 6, "body", small=True))
    for a, b in itertools.product((none, one, full, few), repeat=2):
        if (a, b) != (full, full):
            calls.judge("none to 2,048 terms", "branches", a, b)


def check_work(calls):
    """A work of as many rows as are told is enough for the call, and one of a byte less is not."""
    for _ in range(400):
        a, b = drawn_pair(calls.rng)
        got = calls.call("branches", a, b)
        if got.numbers[0] or got.numbers[4] + got.numbers[5] > 300:
            continue
        forward, backward = got.numbers[4:6]
        for name, rows in (("mul", forward), ("commutator", forward + backward), ("anticommutator", forward + backward)):
            enough = calls.judge("the work that is told is enough", name, a, b, 24 * rows, ROOM)
            assert enough.numbers[0] not in (7, 8) and enough.numbers[4] in (0, rows)
            if rows:
                assert calls.judge("a byte less is not", name, a, b, 24 * rows - 1, ROOM).numbers[0] == 7


run(SEED, (check_drawn, check_damaged, check_ceiling, check_sizes, check_work))
