#!/usr/bin/env python3
"""The rows of one product through the C face, against the rule, the specification's cases and the stored answers of zixy."""
import os
import random

import face
import records
import rule
from calls import run

SEED = 20261116
FULL = 2**64 - 1
STORED = os.path.join(face.ROOT, "tests", "answers", "mul_cmpnts.txt")

# The specification's cases 1 to 8: L's creations, L's annihilations, R's creations, R's annihilations, as words, and
# the rows: creations, annihilations, sign.
CASES = [
    (1, 0, 1, 0, []),
    (1, 1, 1, 1, [(1, 1, 1)]),
    (0, 1, 1, 0, [(0, 0, 1), (1, 1, -1)]),
    (0, 1, 2, 0, [(2, 1, -1)]),
    (0, 1, 2, 4, [(2, 5, -1)]),
    (1, 4, 2, 0, [(3, 4, -1)]),
    (2, 0, 1, 0, [(3, 0, -1)]),
    (0, 3, 3, 0, [(0, 0, -1), (2, 2, 1), (1, 1, 1), (3, 3, 1)]),
]


def rows_in(answer):
    """The rows (ann, cre, coefficient) of an answer's output."""
    words = [int.from_bytes(answer.lent[0][i:i + 8], "little") for i in range(0, answer.numbers[3], 8)]
    signed = [c - 2**64 if c >> 63 else c for c in words[2::3]]
    return list(zip(words[0::3], words[1::3], signed))


def needed(words):
    return 24 * records.row_count(words[:2], words[2:])


def check_cases(calls):
    for l_cre, l_ann, r_cre, r_ann, rows in CASES:
        words = l_cre, l_ann, r_cre, r_ann
        got = calls.call("mul_cmpnts", *words, 24 * len(rows))
        expected = [(ann, cre, sign) for cre, ann, sign in rows]
        calls.tally.same("cases 1 to 8: rows in order", rows_in(got), expected, words)
        calls.judge("cases 1 to 8: the whole answer", "mul_cmpnts", *words, 24 * len(rows) + 5)


def check_every_pair(calls, m):
    """Every pair on m modes, with the output exactly right, longer, and a byte short."""
    for code in range(1 << 4 * m):
        words = [code >> k * m & (1 << m) - 1 for k in range(4)]
        right = needed(words)
        calls.judge(f"every pair on {m} modes: output exactly right", "mul_cmpnts", *words, right)
        calls.judge(f"every pair on {m} modes: output longer", "mul_cmpnts", *words, right + calls.rng.randint(1, 60))
        if right:
            calls.judge(f"every pair on {m} modes: output a byte short", "mul_cmpnts", *words, right - 1)
        else:
            calls.judge("empty products: no output, not refused", "mul_cmpnts", *words, 0)


def stored():
    """(words, whether the Rust agrees with the rule, the Rust's coefficients by term)."""
    with open(STORED, encoding="utf-8") as file:
        for line in file:
            if line.startswith("#"):
                continue
            given, mark, answer = line.rstrip("\n").split(" |")
            sums = [item.split(":") for item in answer.split()]
            yield ([int(word, 16) for word in given.split()[1:]], mark.strip() == "agree",
                   [(int(ann, 16), int(cre, 16), int(c)) for ann, cre, c in sums])


def check_stored(calls):
    for words, agrees, sums in stored():
        right = needed(words)
        longer = calls.rng.choice((0, 0, 1, 24, 100))
        calls.judge("stored pairs: the rule's rows in order", "mul_cmpnts", *words, right + longer)
        got = rows_in(calls.call("mul_cmpnts", *words, right))
        by_term = records.joined(got)
        if agrees:
            calls.tally.same("stored pairs marked agree: the Rust's answer", by_term, sums, words)
        else:
            calls.tally.same("stored pairs marked differs: not the Rust's answer", by_term != sums, True, words)


def check_drawn(calls):
    """Pairs on 1 to 64 modes, most of them not empty, with at most 8 common modes."""
    rng = calls.rng
    for _ in range(3000):
        m = rng.randint(1, 64)
        words = [face.word(rng, m, rng.choice((0.05, 0.1, 0.2, 0.5))) for _ in range(4)]
        if rng.random() < 0.8:
            words[2] &= ~(words[0] & ~words[1])
            words[3] &= ~(words[1] & ~words[2])
        if rule.size(rule.common(words[:2], words[2:])) > 8:
            continue
        out_len = max(0, needed(words) + rng.choice((-24, -1, 0, 0, 1, 23, 24, 500)))
        calls.judge("pairs drawn on 1 to 64 modes", "mul_cmpnts", *words, out_len)


# Where a mode that does not branch may stand in a product that isn't empty, by the places of the four words: not common,
# and common.
ALONE = (), (0,), (1,), (2,), (3,), (0, 1), (0, 3), (2, 3)
COMMON = (0, 1, 2), (1, 2, 3), (0, 1, 2, 3)


def with_branches(rng, b):
    """A pair on 64 modes with b branching modes and up to 3 other common ones, not empty."""
    modes = rng.sample(range(64), 64)
    words = [0, 0, 0, 0]
    for i, p in enumerate(modes):
        for k in (1, 2) if i < b else rng.choice(COMMON if i < b + 3 else ALONE):
            words[k] |= 1 << p
    return words


def check_many_rows(calls):
    for b in range(11):
        words = with_branches(calls.rng, b)
        right = 24 << b
        assert right == needed(words)
        test = "1,024 rows" if b == 10 else "1 to 512 rows on 64 modes"
        for out_len in (right - 1, right, right + 1, right + 999):
            calls.judge(f"{test}: the rule's rows in order", "mul_cmpnts", *words, out_len)


def check_refused(calls):
    for out_len in (0, 23, 24, 65520):
        calls.judge("b = 64: refused with 7", "mul_cmpnts", 0, FULL, FULL, 0, out_len)
        for b in [*range(12, 64), *range(58, 64)]:
            calls.judge("b from 12 to 63: refused with 7", "mul_cmpnts", *with_branches(calls.rng, b), out_len)
    for out_len in (0, 24, 65520):
        expected = records.Answer([7, 0, 0, 0, 0, 0, 0, 0], (bytes(out_len),))
        got = calls.call("mul_cmpnts", 0, FULL, FULL, 0, out_len)
        calls.tally.same("b = 64: 7 and zeros, as the specification has it", got, expected, out_len)
    calls.judge("64 common modes, none branching: one row", "mul_cmpnts", FULL, FULL, FULL, 0, 24)
    calls.judge("64 common modes, one branching: two rows", "mul_cmpnts", FULL - 1, FULL, FULL, 0, 48)


def check_empty(calls):
    """Empty products that would branch without end: not refused, with no output at all."""
    for extra in range(64):
        p = 1 << extra
        for words in ((p, FULL & ~p, FULL, 0), (0, FULL, FULL & ~p, p)):
            assert rule.is_empty(words[:2], words[2:])
            got = calls.call("mul_cmpnts", *words, 0)
            calls.tally.same("empty products: no output, not refused", got, records.Answer([0] * 8, (b"",)), words)
            calls.judge("empty products: output all zero", "mul_cmpnts", *words, calls.rng.randrange(100))


def check_sequence(calls):
    """Answers and refusals by turns, so that nothing can be right only at the first call."""
    for i in range(300):
        words = with_branches(random.Random(i % 7), i % 5)
        calls.judge("one call after another", "mul_cmpnts", *words, (24 << i % 5) - i % 2)


def check_every_pair_of_words(calls):
    for m in (2, 3):
        check_every_pair(calls, m)


run(SEED, (
    check_cases, check_every_pair_of_words, check_stored, check_drawn, check_many_rows, check_refused, check_empty,
    check_sequence,
))
