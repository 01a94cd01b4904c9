#!/usr/bin/env python3
"""The report through the C face: records counted in turn into reports that are handed on, against records.py; batches
against figures taken from all their records at once; and reports at and above every limit."""
import itertools

import draws
import records
from calls import run

SEED = 20261223
FULL = 2**64 - 1
HEAVIEST = UNIT = 2**60
FRESH = [0] * 201
RANKS = range(65)
SHARES = [2, *(6 + 3 * rank for rank in RANKS)]  # where the terms, high and low of the total and of each rank stand
LIMITS = 2**21, 1024, UNIT - 1
ABOVE = (2**21 + 1, 2**32, 2**63, FULL), (1025, 2**32, 2**32 + 1, FULL), (UNIT, UNIT + 1, 2**63, FULL)
EXAMPLE = records.EXAMPLE


def left(answer):
    """The report that a call leaves."""
    return records.numbers_in(answer.lent[0])


def count(calls, test, a, report):
    """A record that is accepted or refused, compared; gives the report that is expected after it."""
    answer = calls.judge(test, "report_add", a, report)
    assert answer.numbers[:5] == [0] * 5
    return left(answer)


def judge_bad(calls, test, a, report):
    """Refusal 15: the report is as it was."""
    answer = calls.judge(test, "report_add", a, report)
    assert answer == records.Answer([15, 0, 0, 0, 0, 0, 0, 0], (records.words(report),))


def with_numbers(report, at, *numbers):
    """A report with other numbers from a place on."""
    return [*report[:at], *numbers, *report[at + len(numbers):]]


def figures(batch):
    """The report of a batch from all its records at once, in no order: their numbers, the sums, the largest."""
    accepted = [records.decode(a)[1] for a in batch if records.refusal(a, 1) is None]
    weights = [records.weight(rows) for rows in accepted]
    by_rank = [[] for _ in RANKS]
    for ann, cre, c in itertools.chain(*accepted):
        by_rank[records.rank(ann, cre)].append(abs(c))
    total = sum(map(len, accepted)), *divmod(sum(weights), UNIT)
    ranks = ((len(some), *divmod(sum(some), UNIT)) for some in by_rank)
    return [len(accepted), len(batch) - len(accepted), *total, max(weights, default=0), *itertools.chain(*ranks)]


# Records


def weighed(rows, weight):
    """The rows with the first coefficient changed so that they have this weight."""
    (ann, cre, c), *rest = rows
    size = weight - records.weight(rest)
    return [(ann, cre, size if c > 0 else -size), *rest]


def drawn(rng):
    """A record that is accepted: of few terms or none, of many, of weight 2^60 or nearly."""
    m, kind = rng.randint(1, 64), rng.randrange(16)
    if kind == 0:
        return records.encode(64, draws.many(rng, 64, rng.randint(33, 300)))
    rows = draws.rows(rng, m, rng.randint(0, 12))
    if kind < 5 and rows:
        rows = weighed(rows, HEAVIEST - rng.choice((0, 0, 1, rng.getrandbits(30))))
    return records.encode(m, rows)


def damaged(rng):
    """(number, place, record) of records that are refused, with 1 to 5."""
    for m in (1, 2, 7, 33, 63, 64):
        good = draws.many(rng, m, 4 if m == 1 else 6)
        yield from ((1, 0, wrong) for wrong in draws.damaged_headers(rng, records.encode(m, good)))
        for number, place, rows in (*draws.damaged_terms(rng, m, good), *draws.two_faults(rng, m, good)):
            yield number, place, records.encode(m, rows)


def some_damaged(rng):
    """One record for each refusal from 1 to 5."""
    return list({number: a for number, _, a in damaged(rng)}.values())


def unread(rng):
    """What may stand for the record where it is not looked at: sound, refused, no record at all, nothing."""
    return [EXAMPLE, drawn(rng), *some_damaged(rng), b"", b"\xff" * 31, rng.randbytes(32), rng.randbytes(50000)]


def term(rng, *sizes):
    """(ann, cre) on 64 modes, of so many annihilations and creations."""
    return tuple(draws.of_size(rng, size) for size in sizes)


def term_of_rank(rng, rank):
    """Of as many annihilations or creations as the rank, and of the others as many or fewer, of each number alike."""
    sizes = rank, rng.randint(0, rank)
    return term(rng, *rng.choice((sizes, sizes[::-1])))


def one_of_each_rank(rng, c):
    """A record of a term of each rank, all with one coefficient."""
    return records.encode(64, sorted((*term_of_rank(rng, rank), c) for rank in RANKS))


def of_one_rank(rng, rank, n):
    """n different terms of one rank, with coefficients 1 or -1."""
    terms = set()
    while len(terms) < n:
        terms.add(term_of_rank(rng, rank))
    return [(*words, rng.choice((-1, 1))) for words in sorted(terms)]


# Batches


def check_example(calls):
    """The specification's example, {0|0} - {1|1}: two terms of rank 1, weight 2; then one byte less of it."""
    once = with_numbers([1, 0, 2, 0, 2, 2, *[0] * 195], 9, 2, 0, 2)
    twice = with_numbers([2, 0, 4, 0, 4, 2, *[0] * 195], 9, 4, 0, 4)
    calls.tally.same("the example counted, by hand", count(calls, "the example counted", EXAMPLE, FRESH), once, "once")
    calls.tally.same("the example counted, by hand", count(calls, "the example counted", EXAMPLE, once), twice, "twice")
    report = count(calls, "a byte less of the example", EXAMPLE[:-1], twice)
    calls.tally.same("the example counted, by hand", report, with_numbers(twice, 1, 1), "a byte less")


def check_drawn(calls):
    """Reports of 1 to 1,024 records, about a third of them refused; each is handed on until it counts so many."""
    wrong = list(damaged(calls.rng))
    calls.rng.shuffle(wrong)
    wrong = itertools.cycle(wrong)
    for n in (1, 2, 30, 300, 700, 1024, 1024, 1024, 1024):
        batch, report = [], FRESH
        for _ in range(n):
            number, place, a = next(wrong) if calls.rng.random() < 0.3 else (0, 0, drawn(calls.rng))
            test = f"drawn records in turn: refused with {number}" if number else "drawn records in turn: accepted"
            answer = calls.judge(test, "report_add", a, report)
            assert answer.numbers == [0, 0, 0, 0, 0, number == 0, number, place]
            report = left(answer)
            batch.append(a)
        calls.tally.same("drawn records in turn: the figures of the whole batch", report, figures(batch), n)


def library_report(calls, batch):
    """What the library makes of a batch, no model between the calls; an answer where it refuses."""
    report = FRESH
    for a in batch:
        got = calls.call("report_add", a, report)
        if got.numbers[0]:
            return got
        report = left(got)
    return report


def check_order(calls):
    """All orders of a small batch, and some orders of large ones: the same report, from the library alone."""
    rng = calls.rng
    wrong = some_damaged(rng)
    small = [*(records.encode(64, [(i, 1, HEAVIEST - 2 * i)]) for i in range(3)), drawn(rng), wrong[1]]
    told = figures(small)
    for order in itertools.permutations(small):
        calls.tally.same("all orders of five records", library_report(calls, order), told, "an order of five")
    for n in (40, 300, 1024):
        batch = [rng.choice(wrong) if rng.random() < 0.25 else drawn(rng) for _ in range(n)]
        told = figures(batch)
        for order in (batch, batch[::-1], sorted(batch, key=len), rng.sample(batch, n)):
            calls.tally.same("orders of 40 to 1,024 records", library_report(calls, order), told, n)


# 1,024 records


def alike():
    """(what, rank, rows) of records that are counted 1,024 times, and the terms, high and low in the end."""
    half = HEAVIEST // 2
    yield "of weight 2^60", 0, [(0, 0, HEAVIEST)], (1024, 1024, 0)
    yield "of weight 2^60 - 1", 64, [(FULL, FULL, 1 - HEAVIEST)], (1024, 1023, UNIT - 1024)
    yield "of weight 2^60 in two terms", 2, [(1, 3, half + 5), (3, 3, 5 - half)], (2048, 1024, 0)
    yield "of no terms", 0, [], (0, 0, 0)
    many = [(1 << i // 64, 1 << i % 64, 2**49) for i in range(2048)]
    yield "of 2,048 terms and weight 2^60", 1, many, (2**21, 1024, 0)


def check_alike(calls):
    """After k alike records all sums are k times the record's; the one after 1,024 is refused, whatever it is."""
    for what, rank, rows, last in alike():
        a, n, weight, report = records.encode(64, rows), len(rows), records.weight(rows), FRESH
        for k in range(1, 1025):
            report = count(calls, f"1,024 records {what}", a, report)
            share = k * n, k * weight // UNIT, k * weight % UNIT
            told = with_numbers([k, 0, *share, weight, *[0] * 195], 6 + 3 * rank, *share)
            calls.tally.same(f"1,024 records {what}: by formula after each", report, told, k)
        assert share == last
        for other in (a, *unread(calls.rng)):
            judge_bad(calls, "the 1,025th record: refusal 15", other, report)


def check_refused(calls):
    """1,024 records that are refused; then accepted ones among them, of weight 2^60 and three creations, so of rank 3."""
    wrong, good = some_damaged(calls.rng), records.encode(3, [(3, 7, -HEAVIEST)])
    patterns = {"are refused": "r", "are refused but for the first": "a" + "r" * 1023,
                "are refused but for the last": "r" * 1023 + "a", "are accepted and refused by turns": "ar",
                "are accepted but for each fifth": "aaaar"}
    for what, pattern in patterns.items():
        report, accepted = FRESH, sum(pattern[k % len(pattern)] == "a" for k in range(1024))
        for k in range(1024):
            a = good if pattern[k % len(pattern)] == "a" else wrong[k % 5]
            report = count(calls, f"1,024 records that {what}", a, report)
        share = accepted, accepted, 0
        told = [accepted, 1024 - accepted, *share, HEAVIEST if accepted else 0, *[0] * 195]
        calls.tally.same(f"1,024 records that {what}: by formula", report, with_numbers(told, 6 + 3 * 3, *share), what)
        for other in unread(calls.rng):
            judge_bad(calls, "the 1,025th record, refused ones counted: refusal 15", other, report)


# Limits


def check_counts(calls):
    """Accepted plus refused: 1,023 passes and 1,024 does not, nor any larger sum, also one that does not fit 64 bits."""
    passes = (0, 0), (1023, 0), (0, 1023), (1, 1022), (1022, 1), (511, 512)
    full = [(1024, 0), (0, 1024), (1, 1023), (1023, 1), (512, 512), (1025, 0), (1024, 1024), (2**32, 0), (0, 2**32),
            (2**31, 2**31), (FULL, 0), (0, FULL), (FULL, 1), (1, FULL), (2**63, 2**63), (FULL, FULL), (FULL, 1024),
            (1024, FULL), (2**63, 2**63 + 1023), (FULL - 1022, 1023), (FULL - 1023, 1024), (1023, FULL), (2**63, 0)]
    rest = [7, 0, 9, 9, *[0] * 195]
    for pair, a in itertools.product(passes, (EXAMPLE, *some_damaged(calls.rng), b"")):
        report = count(calls, "counts of up to 1,023", a, [*pair, *rest])
        assert report[0] + report[1] == sum(pair) + 1
        if sum(pair) == 1023:
            judge_bad(calls, "counts of up to 1,023, then full: refusal 15", a, report)
    for pair, a in itertools.product(full, (EXAMPLE, EXAMPLE[:-1], b"")):
        judge_bad(calls, "counts of 1,024 and more, sums above 2^64 too: refusal 15", a, [*pair, *rest])


def check_shares(calls):
    """Each number of each share at its limit, which passes, and above it; then a share that a record takes above."""
    rng = calls.rng
    a, others = one_of_each_rank(rng, -7), itertools.cycle(unread(rng))
    for at, place in itertools.product(SHARES, range(3)):
        n = 65 if at == 2 else 1
        for number in (LIMITS[place], LIMITS[place] - 1):
            share = with_numbers([0, 0, 0], place, number)
            count(calls, "a number at its limit, a refused record", EXAMPLE[:-1], with_numbers(FRESH, at, *share))
            report = count(calls, "a number at its limit", a, with_numbers(FRESH, at, *share))
            told = [share[0] + n, *divmod(share[1] * UNIT + share[2] + 7 * n, UNIT)]
            calls.tally.same("a number at its limit: by formula", report[at:at + 3], told, (at, place))
        for number in ABOVE[place]:
            judge_bad(calls, "a number above its limit: refusal 15", next(others), with_numbers(FRESH, at + place, number))
    for at, share in itertools.product(SHARES, ((2**21, 0, 0), (0, 1024, UNIT - 1))):
        report = count(calls, "one share goes above its limit", a, with_numbers(FRESH, at, *share))
        judge_bad(calls, "one share above its limit, handed on: refusal 15", next(others), report)


def check_largest(calls):
    """The largest weight is not judged, and it stays where it is larger."""
    for was, weight in itertools.product((0, 1, 2, UNIT - 1, UNIT, UNIT + 1, 2**63, FULL), (0, 1, 2, UNIT - 1, UNIT)):
        rows = [(1, 0, -weight)] if weight else []
        report = count(calls, "any largest weight", records.encode(1, rows), with_numbers(FRESH, 5, was))
        assert report[5] == max(was, weight)
        report = count(calls, "any largest weight, a refused record", EXAMPLE[:-1], with_numbers(FRESH, 5, was))
        assert report[5] == was


def check_unlike(calls):
    """Ranks that do not sum to the total, terms without a record or without weight, weight without terms: not judged."""
    totals, ranks = ((0, 0, 0), (5, 0, 0), (0, 7, 1)), ((0, 0, 0), (9, 0, 0), (0, 0, 8))
    for counts, total, rank in itertools.product(((0, 0), (3, 4)), totals, ranks):
        report = with_numbers([*counts, *total, 0, *[0] * 195], 9, *rank)
        after = count(calls, "numbers that do not fit each other", EXAMPLE, report)
        assert after[:3] == [counts[0] + 1, counts[1], total[0] + 2] and after[9] == rank[0] + 2


def check_passed(calls):
    """From a report at all its limits the new sums are given as they are, and the call after it refuses them."""
    rng = calls.rng
    at_limits = [1022, 0, *LIMITS, FULL, *LIMITS * 65]
    some = [records.encode(1, []), EXAMPLE, one_of_each_rank(rng, HEAVIEST // 65), one_of_each_rank(rng, 1)]
    some += [records.encode(64, weighed(of_one_rank(rng, rank, n), HEAVIEST))
             for rank, n in ((0, 1), (1, 1), (1, 2048), (2, 100), (32, 2048), (63, 2048), (64, 1), (64, 2048))]
    for a in some:
        report, alone = count(calls, "sums above the limits", a, at_limits), figures([a])
        for at in SHARES:
            n, high, low = alone[at:at + 3]
            share = LIMITS[0] + n, *divmod(1025 * UNIT - 1 + high * UNIT + low, UNIT)
            calls.tally.same("sums above the limits: by formula", tuple(report[at:at + 3]), share, at)
        if alone[2]:
            for other in (a, EXAMPLE[:-1], b""):
                judge_bad(calls, "sums above the limits, handed on: refusal 15", other, report)
        else:
            count(calls, "a report at its limits, and no terms: handed on", a, report)
    for wrong in some_damaged(rng):
        assert count(calls, "a report at its limits, a refused record", wrong, at_limits) == with_numbers(at_limits, 1, 1)


def check_not_looked_at(calls):
    """Whatever the record is, a bad report is refused, and left as it was."""
    rng = calls.rng
    bad = [(0, 1024), (1, 1024), (2, 2**21 + 1), (3, 1025), (4, UNIT), (6, FULL), (7, FULL), (8, FULL), (198, 2**21 + 1),
           (199, 1025), (200, UNIT)]
    for (at, number), a in itertools.product(bad, unread(rng)):
        judge_bad(calls, "a bad report and any bytes: refusal 15", a, with_numbers(FRESH, at, number))


# Ranks


def check_ranks(calls):
    """Every number of annihilations with every number of creations, 65 terms a record: the larger of both is the rank."""
    rng = calls.rng
    for size, turned in itertools.product(RANKS, (0, 1)):
        terms, told = [], [[0, 0, 0] for _ in RANKS]
        for other in RANKS:
            pair, c = term(rng, size, other), 1 + other * rng.randrange(2**40)
            terms.append((*(pair[::-1] if turned else pair), c if other % 2 else -c))
            told[max(size, other)][0] += 1
            told[max(size, other)][2] += c
        report = count(calls, "every number of creations and annihilations", records.encode(64, sorted(terms)), FRESH)
        told = list(itertools.chain(*told))
        calls.tally.same("every number of creations and annihilations: by hand", report[6:], told, (size, turned))


def check_one_term(calls):
    """One term, {|}, {0|} and {0,1|2} among them, of each rank: its rank alone is changed."""
    rng = calls.rng
    stated = [(0, 0, 0), (0, 1, 1), (4, 3, 2), (1, 0, 1), (1, 1, 1), (3, 1, 2), (0, 3, 2), (7, 0, 3), (3, 3, 2), (7, 7, 3),
              (FULL, 0, 64), (0, FULL, 64), (FULL, 1, 64), (3, FULL, 64), (FULL >> 1, 0, 63), (1, FULL - 1, 63),
              (FULL, FULL >> 1, 64), (FULL - 1, FULL, 64), (FULL, FULL, 64)]
    terms = stated + [((1 << m) - 1, (1 << m) - 1, m) for m in range(1, 65)]
    terms += [(*term_of_rank(rng, rank), rank) for rank in RANKS for _ in range(12)]
    for ann, cre, rank in terms:
        c = rng.choice((1, -1, HEAVIEST, -HEAVIEST, draws.coefficient(rng)))
        report = count(calls, "one term of each rank", records.encode(64, [(ann, cre, c)]), FRESH)
        share = 1, *divmod(abs(c), UNIT)
        told = with_numbers([1, 0, *share, abs(c), *[0] * 195], 6 + 3 * rank, *share)
        calls.tally.same("one term of each rank: by hand", report, told, (ann, cre))


def check_one_rank(calls):
    """2,048 terms of one rank, whose weight carries the low over 2^60."""
    rng = calls.rng
    for rank in (1, 2, 31, 32, 63, 64):
        rows = of_one_rank(rng, rank, 2048)
        even = [(ann, cre, c * 2**49) for ann, cre, c in rows]
        for some in (even, weighed(rows, HEAVIEST), weighed(rows, HEAVIEST - 5), rows):
            a, weight, at = records.encode(64, some), records.weight(some), 6 + 3 * rank
            for low in (0, 1, UNIT - 1, UNIT - 2**49, UNIT - 2**59, UNIT - 2048, UNIT - 2049, rng.randrange(UNIT)):
                report = count(calls, "2,048 terms of one rank", a, with_numbers(FRESH, at, 0, 1023, low))
                told = [2048, 1023 + (low + weight) // UNIT, (low + weight) % UNIT]
                calls.tally.same("2,048 terms of one rank: by formula", report[at:at + 3], told, (rank, low))


# Many terms


def two_body(rng, n):
    """n terms of two creations and two annihilations on 16 modes, so that annihilation words repeat."""
    pairs = [1 << p | 1 << q for p, q in itertools.combinations(range(16), 2)]
    return [(*words, rng.choice((-1, 1))) for words in sorted(rng.sample(list(itertools.product(pairs, pairs)), n))]


def check_long(calls):
    """2,048 terms: sound, also with a weight of 2^60; then damaged at the first, at the last and at one between, also twice."""
    rng, n = calls.rng, 2048
    for m, good in (16, two_body(rng, n)), (33, draws.many(rng, 33, n)), (64, draws.many(rng, 64, n)):
        report = count(calls, "2,048 terms", records.encode(m, good), FRESH)
        count(calls, "2,048 terms", records.encode(m, weighed(good, HEAVIEST)), report)
        for number, place, rows in (*draws.damaged_terms(rng, m, good), *draws.two_faults(rng, m, good)):
            answer = calls.judge("2,048 terms, damaged", "report_add", records.encode(m, rows), FRESH)
            told = records.Answer([0, 0, 0, 0, 0, 0, number, place], (records.words(with_numbers(FRESH, 1, 1)),))
            calls.tally.same("2,048 terms, damaged: by hand", answer, told, (m, number, place))


# Weights


def heavy():
    """Coefficients whose magnitudes sum to more than 2^60; some of the sums are 2^64, which is 0 in 64 bits, or a little more."""
    least, most = -2**63, 2**63 - 1
    few = [[least], [most], [2**60 + 1], [2**60, 1], [1, 2**60], [2**60, -2**60], [2**61 - 1], [2**61 - 1, 1], [2**61], [2**62] * 2]
    wrapped = [[least] * 2, [most, most, 2], [least, most, 1], [2**62] * 4, [-2**62] * 4 + [1], [2**61] * 8, [least] * 3,
               [least] * 2 + [5], [2**60] * 16, [2**53] * 2048, [least] * 2048, [2**62] * 2047 + [2**62 + 1]]
    return few + wrapped


def check_heavy(calls):
    """Refused with 5, with all terms of one rank and of many, also where a sum in 64 bits would be small; not one is counted."""
    rng = calls.rng
    for sizes, rank in itertools.product(heavy(), (1, 30, None)):
        n = len(sizes)
        words = of_one_rank(rng, rank, n) if rank else draws.many(rng, 64, n)
        assert len(words) == n and records.weight([(0, 0, c) for c in sizes]) > HEAVIEST
        a = records.encode(64, [(*row[:2], c) for row, c in zip(words, rng.sample(sizes, n))])
        answer = calls.judge("weights above 2^60, and sums that wrap", "report_add", a, FRESH)
        told = records.Answer([0, 0, 0, 0, 0, 0, 5, 0], (records.words(with_numbers(FRESH, 1, 1)),))
        calls.tally.same("weights above 2^60, and sums that wrap: by hand", answer, told, (sizes[:4], n))


# Whole reports, drawn


def drawn_share(rng):
    """Within the limits, often at them."""
    return [rng.choice((0, 2**21 - 1, 2**21, rng.randrange(2**21))), rng.choice((0, 1023, 1024, rng.randrange(1024))),
            rng.choice((0, UNIT - 1, UNIT - 1 - rng.getrandbits(20), rng.randrange(UNIT)))]


def drawn_report(rng):
    """Within the limits, where nothing need sum to anything; in two of five with up to three numbers that are not."""
    accepted = rng.choice((0, 1023, rng.randrange(1024)))
    counts = accepted, rng.choice((0, 1023 - accepted, rng.randrange(1024 - accepted)))
    shares = [drawn_share(rng) for _ in SHARES]
    report = [*counts, *shares[0], rng.choice((0, HEAVIEST, FULL, rng.getrandbits(64))), *itertools.chain(*shares[1:])]
    for _ in range(rng.randint(1, 3) if rng.random() < 0.4 else 0):
        place = rng.randrange(3)
        report[rng.choice(SHARES) + place] = rng.choice(ABOVE[place])
    if rng.random() < 0.1:
        report[rng.randrange(2)] = rng.choice((1024 - report[0], 1024, FULL, rng.getrandbits(64)))
    return report


def check_drawn_reports(calls):
    rng = calls.rng
    wrong = some_damaged(rng)
    for _ in range(3000):
        a, report = rng.choice(wrong) if rng.random() < 0.2 else drawn(rng), drawn_report(rng)
        said = "above a limit: refusal 15" if records.is_bad_report(report) else "at and near the limits"
        calls.judge(f"drawn reports, {said}", "report_add", a, report)
    for _ in range(100):
        judge_bad(calls, "reports of any numbers: refusal 15", EXAMPLE, [rng.getrandbits(64) for _ in FRESH])


run(SEED, (
    check_example, check_drawn, check_order, check_alike, check_refused, check_counts, check_shares, check_largest,
    check_unlike, check_passed, check_not_looked_at, check_ranks, check_one_term, check_one_rank, check_long, check_heavy,
    check_drawn_reports,
))
