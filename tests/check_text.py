#!/usr/bin/env python3
"""Ladder text, in and out, through the C face, against ladder_text.py: every kind of broken line, every limit, the order of the
refusals, drawn texts and records, and texts that come back as the record they were written from."""
import itertools

import draws
import ladder_text
import records
from calls import run
from ladder_text import BROKEN, GOOD, MAX_TEXT, line_of, text_of

SEED = 20270104
HEAVIEST = 2**60
ROOM = 32 + 24 * 2048
EXAMPLE, EXPORTED = records.EXAMPLE, b"1 0^ 0_\n-1 1^ 1_\n"
DRAWN = 100000
LONG = 10000  # digits of a long number


def joined(*lines):
    """A text of lines given without their line feeds."""
    return b"".join(line + b"\n" for line in lines)


def product(coefficient, *ladders):
    """A line of ladders as they are written."""
    return " ".join([str(coefficient), *ladders]).encode()


def work_for(text):
    """The work that a text needs whose lines are all lines; 0 where one is not."""
    lines = ladder_text.read(text)
    return 0 if None in lines else ladder_text.work_for(lines)


def judge(calls, test, numbers, m, text, work=None, room=ROOM):
    """An import that must come to these numbers of a refusal, (0, 0, 0) for none, with as much work as it needs."""
    answer = calls.judge(test, "import", m, text, work_for(text) if work is None else work, room)
    assert answer.numbers[:3] == list(numbers), (test, text[:80], answer.numbers[:3])
    return answer


def record_in(answer):
    return answer.lent[-1][:answer.numbers[3]]


# Examples by hand


def check_examples(calls):
    """Each text with the rows of its record, worked out by hand."""
    for m, text, rows in [
        (2, EXPORTED, [(1, 1, 1), (2, 2, -1)]), (1, b"", []), (64, b"", []), (3, b"0\n", []), (3, b"-0\n-0 2^\n0 2_ 2_\n", []),
        (1, b"5\n", [(0, 0, 5)]), (1, b"-5\n", [(0, 0, -5)]), (1, b"5\n-5\n", []), (1, b"5\n-3\n-0\n", [(0, 0, 2)]),
        (4, b"1 3^ 0^\n", [(0, 9, -1)]), (4, b"1 0^ 3^\n", [(0, 9, 1)]), (4, b"1 3_ 0_\n", [(9, 0, -1)]),
        (1, b"1 0_ 0^\n", [(0, 0, 1), (1, 1, -1)]), (1, b"1 0^ 0_\n1 0_ 0^\n", [(0, 0, 1)]), (2, b"3 0_ 1^\n", [(1, 2, -3)]),
        (4, b"1 3^ 3^\n", []), (4, b"1 3_ 3_\n", []), (4, b"1 3_ 3^ 3_\n", [(8, 0, 1)]), (4, b"1 3^ 3_ 3^\n", [(0, 8, 1)]),
        (4, b"2 3^ 3_ 3^ 3_\n", [(8, 8, 2)]), (4, b"2 3_ 3^ 3_ 3^\n", [(0, 0, 2), (8, 8, -2)]),
        (2, b"1 0_ 1_ 0^ 1^\n", [(0, 0, -1), (1, 1, 1), (2, 2, 1), (3, 3, 1)]), (64, b"-7 63^ 63_\n", [(2**63, 2**63, -7)]),
        (2, b"1 0^ 1_ 1^ 0_\n-1 1^ 0_ 0^ 1_\n", [(1, 1, 1), (2, 2, -1)]), (2, b"1 1^ 1_\n1 0^ 0_\n", [(1, 1, 1), (2, 2, 1)]),
    ]:
        got = judge(calls, "texts and their records", (0, 0, 0), m, text)
        calls.tally.same("texts and their records, by hand", record_in(got), records.encode(m, rows), text)
    for m, rows, text in [
        (2, [(1, 1, 1), (2, 2, -1)], EXPORTED), (1, [], b""), (1, [(0, 0, -1)], b"-1\n"),
        (64, [(2**63 + 1, 6, 12)], b"12 1^ 2^ 0_ 63_\n"), (64, [(0, 0, HEAVIEST)], b"1152921504606846976\n"),
        (64, [(1 << 10, 0, -HEAVIEST)], b"-1152921504606846976 10_\n"),
    ]:
        got = calls.judge("records and their texts", "export", records.encode(m, rows), len(text))
        calls.tally.same("records and their texts, by hand", record_in(got), text, rows)


# The grammar


def among(broken, good):
    """(place, text) with one line at the first, a middle and the last place; and alone."""
    for place, count in ((0, 1), (0, 5), (2, 5), (4, 5)):
        lines = [good] * count
        lines[place] = broken
        yield place, joined(*lines)


def check_broken(calls):
    """Lines that are none, at each place; each byte of a line changed, left out or put in, by every byte that there is."""
    for broken in BROKEN:
        for place, text in among(broken, b"1 0^ 0_"):
            judge(calls, "broken lines, at the first, a middle and the last", (16, 0, place), 2, text, 999)
    for good in GOOD:
        for place, text in among(good, b"-3 1^"):
            outside = any(mode > 63 for _, mode in GOOD[good][1])
            judge(calls, "lines that are lines, at each place", (2, 1, place) if outside else (0, 0, 0), 64, text)
    for line in (b"-12 3^ 0_", b"10 0^"):
        for at, byte in itertools.product(range(len(line) + 1), range(256)):
            for changed in (line[:at] + bytes([byte]) + line[at + 1:], line[:at] + bytes([byte]) + line[at:]):
                text = joined(b"1", changed, b"1")
                calls.judge("a line with one byte changed or put in", "import", 4, text, work_for(text), ROOM)
        for at in range(len(line)):
            text = joined(line[:at] + line[at + 1:], line)
            calls.judge("a line with one byte left out", "import", 4, text, work_for(text), ROOM)


def check_ends(calls):
    """Texts cut anywhere: without its line feed the last line is broken, whatever else it is."""
    text = joined(b"-12 3^ 0_", b"0", b"1 1_", b"10 2^ 2^")
    for end in range(len(text) + 1):
        cut = text[:end]
        numbers = (16, 0, cut.count(b"\n")) if cut and not cut.endswith(b"\n") else (0, 0, 0)
        judge(calls, "texts cut anywhere", numbers, 4, cut, 999)
    outside, long = b"1 4^", product(1, *["0^"] * 13)
    for last in (outside, long, b"1", b"0", b"-", b" ", b"\r", b"1\r"):
        judge(calls, "a last line without its line feed", (16, 0, 0), 4, last)
        judge(calls, "a last line without its line feed", (16, 0, 1), 4, b"1\n" + last)
        judge(calls, "a last line without its line feed", (2, 1, 0), 4, outside + b"\n" + last)
        judge(calls, "a last line without its line feed", (17, 0, 0), 4, long + b"\n" + last)
    for count in (1, 2, 3, 1000):
        judge(calls, "empty lines", (16, 0, 0), 4, b"\n" * count)
        judge(calls, "empty lines", (16, 0, count), 4, b"1 0^\n" * count + b"\n", 99)


# Numbers


def long_modes(rng):
    """Modes of many digits; some are small once they are cut to 32, 64 or 128 bits."""
    yield from (64, 65, 99, 100, 255, 256, 2**31, 2**32 - 1, 2**32, 2**32 + 1, 2**63, 2**64 - 1, 2**64, 2**64 + 1, 10**19, 10**20)
    yield from (2**128, 2**128 + 3, 10**39, int("9" * 40), int("1" + "0" * 39), 2**256 + 1, 10**LONG, 10**LONG + 1)
    yield from (rng.randrange(10**39, 10**40) for _ in range(3))


def check_modes(calls):
    """Modes below m and not, at the first and the last ladder; numbers too long for any word."""
    for m in range(1, 65):
        for kind in "^_":
            inside, outside = f"{m - 1}{kind}", f"{m}{kind}"
            judge(calls, "the highest mode", (0, 0, 0), m, joined(product(3, inside), product(-2, "0^", inside)))
            for line in (product(1, outside), product(0, outside), product(1, inside, outside), product(1, outside, inside)):
                judge(calls, "the mode above it: refusal 2", (2, 1, 0), m, joined(line))
                judge(calls, "the mode above it: refusal 2", (2, 1, 2), m, joined(b"1", b"0", line, b"x"), 999)
    for mode, kind in itertools.product(long_modes(calls.rng), "^_"):
        for m in (1, 5, 64):
            judge(calls, "modes of many digits: refusal 2", (2, 1, 1), m, joined(b"1", product(1, "0^", f"{mode}{kind}")), 999)
        judge(calls, "modes of many digits: refusal 2", (2, 1, 0), 64, joined(product(0, *["0^"] * 12, f"{mode}{kind}")), 999)
    judge(calls, "a mode of many digits, then a broken line", (2, 1, 0), 64, joined(product(1, f"{10**LONG}^"), b"x"), 999)
    judge(calls, "a mode of many digits in a broken line", (16, 0, 0), 64, joined(product(1, f"{10**LONG}^", "")), 999)


def check_m(calls):
    """The mode count is judged whole, and before anything else."""
    for m in (0, 65, 66, 255, 256, 257, 2**32, 2**32 + 1, 2**63, 2**64 - 64, 2**64 - 1):
        for text in (b"", b"1\n", b"x", joined(product(1, "99^")), joined(product(10**40))):
            for work, room in ((0, 0), (999, ROOM)):
                judge(calls, "mode counts outside 1 to 64: refusal 1", (1, 1, 0), m, text, work, room)


def heavy_numbers(rng):
    """Magnitudes above 2^60 of 19 digits and of many; some are small once they are cut to 64 or 128 bits."""
    yield from (HEAVIEST + 1, 10**19 - 1, 2**61, 2**63 - 1, 2**63, 2**64 - 1, 2**64, 2**64 + 1, 10**19, 10**20 - 1, 2**65 + 5)
    yield from (2**127, 2**128, 2**128 + 1, 10**39, 10**40 - 1, 2**192, 10**100)
    yield from (10**(LONG - 1), 10**LONG - 1, 2**64 * 10**LONG + 1)
    yield from (rng.randrange(10**(digits - 1), 10**digits) for digits in (20, 20, 40, 40, LONG))


def check_coefficients(calls):
    """Coefficients of 1 to 10,000 digits, with 0 to 12 ladders: up to 2^60 over 2 to the ladders and no more."""
    rng = calls.rng
    for digits in range(1, 19):
        c = rng.randrange(10**(digits - 1), 10**digits)
        for text in (joined(product(c)), joined(product(-c)), joined(product(c, "0^", "1_")) if 4 * c <= HEAVIEST else b""):
            judge(calls, "coefficients of 1 to 18 digits", (0, 0, 0), 2, text)
    for count in range(13):
        most = HEAVIEST >> count
        ladders = [f"{rng.randrange(64)}{rng.choice('^_')}" for _ in range(count)]
        for c, numbers in ((most, (0, 0, 0)), (most - 1, (0, 0, 0)), (most + 1, (8, 0, 0))):
            for sign in (1, -1):
                judge(calls, "the largest coefficient, and one above it", numbers, 64, joined(product(sign * c, *ladders)))
                judge(calls, "the largest coefficient, and one above it", numbers, 64, joined(product(sign * c, *["5^"] * count)))
        for c in heavy_numbers(rng):
            judge(calls, "coefficients of 19 to 10,000 digits: refusal 8", (8, 0, 0), 64, joined(b"1", product(c, *ladders)))
            judge(calls, "coefficients of 19 to 10,000 digits: refusal 8", (8, 0, 0), 64, joined(product(-c, *ladders), b"0"))
    for c in heavy_numbers(rng):
        judge(calls, "a long coefficient and its opposite: refusal 8", (8, 0, 0), 64, joined(product(c), product(-c)))
        judge(calls, "a long coefficient in a broken line", (16, 0, 0), 64, joined(product(c) + b" ", product(c)))
        judge(calls, "a long coefficient, then a broken line", (16, 0, 1), 64, joined(product(c), b"x"))


def check_sums(calls):
    """The sum over lines at 2^60 exactly, one below and one above; signs do not cancel in it, and zeros add nothing."""
    half, quarter = HEAVIEST // 2, HEAVIEST // 4
    for lines in [
        [(half,), (half,)], [(half,), (-half,)], [(-quarter, "0^"), (half,)], [(quarter, "0^"), (quarter, "0_")],
        [(quarter // 2, "1^", "1^"), (half,)], [(1 << 48, *["0^"] * 12)], [(1 << 47, *["0_"] * 12)] * 2, [(1 << 50,)] * 1024,
        [(HEAVIEST - 2,), (1, "3_")], [(HEAVIEST - 4095,), (0, *["0^"] * 12), (4095,)],
    ]:
        text, zeros = joined(*(product(*line) for line in lines)), joined(b"0 0^ 1_", b"-0 2^ 2^", b"0")
        for more, number in ((b"", 0), (zeros, 0), (b"1\n", 8), (b"-1\n", 8), (b"1 3^ 3^\n", 8)):
            judge(calls, "sums of 2^60, and above it", (number, 0, 0), 4, text + more)
            judge(calls, "sums of 2^60, and above it", (number, 0, 0), 4, more + text)
    for lines in ([2**63] * 2, [2**63] * 2 + [5], [2**64 - 1, 1], [HEAVIEST] * 16, [HEAVIEST] * 17, [2**127] * 2,
                  [2**128 - 1, 1, 7]):
        judge(calls, "sums that pass 2^64 and 2^128: refusal 8", (8, 0, 0), 4, joined(*map(product, lines)))
    judge(calls, "sums that pass 2^64 and 2^128: refusal 8", (8, 0, 0), 4, joined(product(2**52, *["0^"] * 12)) * 16)
    judge(calls, "sums that pass 2^64 and 2^128: refusal 8", (8, 0, 0), 4, joined(product(2**50)) * 16385)


# Ladders


def check_ladders(calls):
    """0 to 12 ladders of every make, and 13 and more, at each place."""
    rng = calls.rng
    for count in range(13):
        for m in (1, 2, 6, 12, 64):
            for _ in range(12):
                line = product(rng.randint(-9, 9), *(f"{rng.randrange(m)}{rng.choice('^_')}" for _ in range(count)))
                judge(calls, "0 to 12 ladders", (0, 0, 0), m, joined(line))
    for count in (13, 14, 24, 64, 65, 255, 256, 257, 1000, 65536 + 3):
        line = product(1, *(f"{rng.randrange(4)}{rng.choice('^_')}" for _ in range(count)))
        for place, text in among(line, b"1 0^"):
            judge(calls, "13 ladders and more: refusal 17", (17, 0, place), 4, text, 999)
    for c in (0, 1, 10**40):
        judge(calls, "13 ladders and more: refusal 17", (17, 0, 0), 4, joined(product(c, *["3^"] * 13)), 999)


def check_repeats(calls):
    """All products of up to 5 ladders on one mode and of up to 4 on two; then of 12 ladders those that branch most."""
    for m, most in ((1, 5), (2, 4)):
        kinds = [f"{mode}{kind}" for mode in range(m) for kind in "^_"]
        for ladders in itertools.chain(*(itertools.product(kinds, repeat=n) for n in range(most + 1))):
            judge(calls, "repeats on one mode and on two", (0, 0, 0), m, joined(product(3, *ladders)))
    for _ in range(5):
        modes = calls.rng.sample(range(64), 6)
        apart = [*(f"{p}_" for p in modes), *(f"{p}^" for p in calls.rng.sample(modes, 6))]
        beside = [ladder for p in modes for ladder in (f"{p}_", f"{p}^")]
        for ladders in (apart, beside, apart[::-1], beside[::-1]):
            answer = judge(calls, "12 ladders that branch most", (0, 0, 0), 64, joined(product(-2, *ladders)))
            assert len(record_in(answer)) in (32 + 24 * 64, 32 + 24)
        for same in ([f"{modes[0]}_", f"{modes[0]}^"] * 6, [f"{modes[0]}^"] * 12, [f"{modes[0]}^", f"{modes[0]}_"] * 6):
            judge(calls, "12 ladders on one mode", (0, 0, 0), 64, joined(product(7, *same)))


# The order of the refusals


def check_order(calls):
    """Faults of one line: 16, then 2, then 17; of two lines the first; then 8, 7, 10, 11."""
    broken, outside, long = b"1 0^ ", b"1 4_", product(1, *["0^"] * 13)
    both, all_three = product(1, *["0^"] * 12, "4^"), product(10**40, *["0^"] * 12, "4^", "")
    assert ladder_text.parsed(all_three) is None
    faults = [(broken, (16, 0)), (outside, (2, 1)), (long, (17, 0)), (both, (2, 1)), (all_three, (16, 0)),
              (product(1, *["99^"] * 20), (2, 1)), (product(1, *["99^"] * 20) + b"^", (16, 0)), (b"01 99^", (16, 0))]
    heavy = product(10**40)
    for (first, (number, operand)), (second, _) in itertools.product(faults, repeat=2):
        for place, lines in ((0, (first, second)), (1, (b"1", first, second)), (2, (heavy, heavy, first, b"2", second))):
            judge(calls, "faults of lines, in order", (number, operand, place), 4, joined(*lines), 0, 0)
            judge(calls, "faults of lines, in order", (1, 1, 0), 65, joined(*lines), 0, 0)
    many = b"".join(line_of(ann, 0, 1) for ann in range(2049))
    need = work_for(many)
    for numbers, text, work, room in [
        ((8, 0, 0), many + heavy + b"\n", 0, 0), ((8, 0, 0), many + heavy + b"\n", need + 48, 0), ((7, 0, 0), many, need - 1, 0),
        ((10, 0, 0), many, need, 0), ((10, 0, 0), many, need, ROOM), ((11, 0, 0), many + b"-1\n", need + 48, ROOM - 1),
        ((0, 0, 0), many + b"-1\n", need + 48, ROOM), ((7, 0, 0), many + b"-1\n", need + 47, ROOM),
        ((8, 0, 0), heavy + b"\n", 0, 0), ((7, 0, 0), b"1\n", 47, 0), ((11, 0, 0), b"1\n", 48, 55),
        ((11, 0, 0), b"", 0, 31), ((11, 0, 0), b"0\n", 48, 0),
    ]:
        judge(calls, "8 before 7 before 10 before 11", numbers, 12, text, work, room)


# Memory


def drawn_line(rng, m, most=5):
    """A line on a few of m modes."""
    near = rng.sample(range(m), min(m, 4))
    count = rng.choice((0, 1, 2, 2, 3, 4, most))
    return product(rng.choice((0, 1, -1, 2, rng.randint(-9, 9), draws.coefficient(rng) >> 5)),
                   *(f"{rng.choice(near)}{rng.choice('^_')}" for _ in range(count)))


def drawn_text(rng, m, most=5):
    """Up to 8 lines; one in six is an earlier line, and one in six such a line with its sign changed."""
    lines = []
    for _ in range(rng.randrange(9)):
        kind = rng.randrange(6) if lines else 2
        line = rng.choice(lines) if kind < 2 else drawn_line(rng, m, most)
        lines.append(line[1:] if kind == 1 and line.startswith(b"-") else b"-" + line if kind == 1 else line)
    return joined(*lines)


def check_lengths(calls):
    """Work and output exactly right, a byte short, far too short, and to spare; the bytes handed on from call to call."""
    rng = calls.rng
    for handed_on in (None, {}):
        calls.workspace = handed_on
        for _ in range(300):
            m = rng.randint(1, 64)
            text = drawn_text(rng, m)
            need, length = work_for(text), len(record_in(ladder_text.import_(m, text, 1 << 20, ROOM)))
            for work, room in ((need, length), (need + rng.randint(1, 99), length + rng.randint(1, 99))):
                judge(calls, "work and output exactly right, and to spare", (0, 0, 0), m, text, work, room)
            for short in {max(0, length - 1), length - 24, 0, rng.randrange(length)}:
                judge(calls, "an output too short: refusal 11", (11, 0, 0), m, text, need, max(0, short))
            for short in {need - 1, need // 2, 0} - ({0, -1} if not need else set()):
                judge(calls, "a work too short: refusal 7", (7, 0, 0), m, text, short, length)
        calls.workspace = None
    for line in (b"0", b"0 0^ 0^", b"1 3^ 3^", b"0 1_ 2^ 3_"):
        need = 48 << line.count(b" ")
        judge(calls, "lines that vanish need their work", (0, 0, 0), 4, joined(line), need, 32)
        judge(calls, "lines that vanish need their work", (7, 0, 0), 4, joined(line), need - 1, 32)
    for count in range(13):
        text, need = joined(product(1, *["0^"] * count)) * 3, 3 * 48 << count
        judge(calls, "the work of 0 to 12 ladders", (0, 0, 0), 1, text, need)
        judge(calls, "the work of 0 to 12 ladders", (7, 0, 0), 1, text, need - 1)


def check_many(calls):
    """Thousands of lines: all alike, all different, cancelling, and in another order."""
    rng = calls.rng
    pairs = rng.sample(list(itertools.product(range(64), range(64))), 2049)
    terms = [(*pair, rng.choice((-3, -1, 1, 2))) for pair in pairs]
    most, over = text_of(terms[:2048]), text_of(terms)
    whole = record_in(judge(calls, "2,048 terms, and one more", (0, 0, 0), 6, most))
    assert len(whole) == ROOM
    judge(calls, "2,048 terms, and one more", (10, 0, 0), 6, over)
    judge(calls, "2,048 terms, and one more", (11, 0, 0), 6, most, room=ROOM - 1)
    ann, cre, c = terms[-1]
    judge(calls, "2,048 terms, and one more", (0, 0, 0), 6, over + line_of(ann, cre, -c))
    for _ in range(3):
        turned = text_of(rng.sample(terms[:2048], 2048))
        got = judge(calls, "lines in another order, the same record", (0, 0, 0), 6, turned)
        assert record_in(got) == whole
    for line, count in ((b"1", 20000), (b"-0", 20000), (b"2 5^ 0_", 5000), (b"1 2_ 2^ 1_ 1^", 1500)):
        judge(calls, "one line, many times", (0, 0, 0), 6, joined(line) * count)
        judge(calls, "one line, many times", (7, 0, 0), 6, joined(line) * count, work_for(joined(line)) * count - 1)
    judge(calls, "cancelling lines", (0, 0, 0), 6, over + text_of([(ann, cre, -c) for ann, cre, c in terms]))
    long = joined(product(HEAVIEST)) + b"0\n" * 1000 + joined(product(0, *["5^"] * 12)) * 20
    judge(calls, "cancelling lines", (0, 0, 0), 6, long)


# Export


def longest_rows():
    """2,048 different terms with as many bytes as there can be. Of both full words a term lacks nothing; one mode, those of one
    digit first; or two modes, of which one or both have one digit. The coefficients have as many digits as the weight allows: a
    digit more on the cheapest."""
    full, sides = 2**64 - 1, [(side, p) for side in (0, 1) for p in range(64)]
    lacking = [(), *itertools.combinations(sides, 1), *itertools.combinations(sides, 2)]
    lacking.sort(key=lambda gone: sum(2 + len(str(p)) for _, p in gone))
    sizes, left = [1] * 2048, HEAVIEST - 2048
    for digits, place in itertools.product(range(1, 19), range(2048)):
        if 9 * 10**(digits - 1) <= left:
            sizes[place], left = 10**digits, left - 9 * 10**(digits - 1)
    rows = []
    for gone, c in zip(lacking, sizes):
        ann, cre = (full & ~sum(1 << p for of, p in gone if of == side) for side in (0, 1))
        rows.append((ann, cre, -c))
    return sorted(rows)


def check_longest(calls):
    """The longest text that a record has fits FERMION_MAX_TEXT, and is delivered; a byte less of output is refused."""
    a = records.encode(64, longest_rows())
    assert records.refusal(a, 1) is None and len(a) == ROOM
    length = len(text_of(records.decode(a)[1]))
    print(f"the longest text has {length:,} bytes")
    for room, number in ((MAX_TEXT, 0), (length, 0), (length + 7, 0), (length - 1, 11), (0, 11)):
        answer = calls.judge("the longest text", "export", a, room)
        assert answer.numbers == [number, 0, 0, 0 if number else length, 0, 0, 0, 0]
    judge(calls, "the longest text is not imported: refusal 17", (17, 0, 0), 64, text_of(records.decode(a)[1]), 999)


def drawn_record(rng):
    """A record of up to 12 terms, sometimes of many or of weight 2^60."""
    m, kind = rng.choice((rng.randint(1, 64), 64)), rng.randrange(12)
    if kind == 0:
        return records.encode(64, draws.many(rng, 64, rng.randint(13, 200)))
    rows = draws.rows(rng, m, rng.randint(0, 12))
    if kind == 1 and rows:
        (ann, cre, c), *rest = rows
        size = HEAVIEST - records.weight(rest)
        rows = [(ann, cre, size if c > 0 else -size), *rest]
    return records.encode(m, rows)


def check_exports(calls):
    """Drawn records and damaged ones, with an output of every length near the right one."""
    rng = calls.rng
    for _ in range(3000):
        a = drawn_record(rng)
        length = len(text_of(records.decode(a)[1]))
        for room in {length, length + rng.randrange(200)}:
            calls.judge("drawn records", "export", a, room)
        if length:
            for room in {length - 1, rng.randrange(length), 0}:
                assert calls.judge("an output too short: refusal 11", "export", a, room).numbers[0] == 11
    for m in (1, 2, 7, 33, 63, 64):
        good = draws.many(rng, m, 4 if m == 1 else 6)
        wrong = [(1, 0, a) for a in draws.damaged_headers(rng, records.encode(m, good))]
        wrong += [(number, place, records.encode(m, rows)) for number, place, rows in
                  [*draws.damaged_terms(rng, m, good), *draws.two_faults(rng, m, good)]]
        for number, place, a in wrong:
            for room in (0, 300):
                answer = calls.judge("damaged records: refusals 1 to 5, before 11", "export", a, room)
                assert answer.numbers[:3] == [number, 1, place]


def check_coefficients_out(calls):
    """Coefficients of every number of digits, at its ends, and with zeros inside."""
    ends = {10**digits + more for digits in range(19) for more in (-1, 0, 1)} - {0}
    for c in sorted(ends | {HEAVIEST, HEAVIEST - 1, 10203, 2**32, 2**53}):
        for sign in (1, -1):
            calls.judge("coefficients of every length, out", "export", records.encode(1, [(0, 0, sign * c)]), 40)
    for p in range(64):
        calls.judge("every mode, out", "export", records.encode(64, [(1 << p, 1 << 63 - p, -5)]), 40)


# Out and in again


def check_back(calls):
    """A text that a record is written as gives back its bytes; records that differ have texts that differ."""
    rng, texts = calls.rng, {}
    for _ in range(6000):
        m = rng.choice((rng.randint(1, 8), rng.randint(1, 64), 64))
        rows = draws.rows(rng, m, rng.randint(0, 9), rng.choice(("few", "body")))
        a = records.encode(m, [(ann, cre, (c >> 8) or 1) for ann, cre, c in rows])
        text = record_in(calls.judge("records that come back, out", "export", a, 4096))
        got = judge(calls, "records that come back, in", (0, 0, 0), m, text)
        calls.tally.same("the text of a record gives back its bytes", record_in(got), a, text)
        texts.setdefault((m, text), set()).add(a)
    calls.tally.same("different records have different texts", max(map(len, texts.values())), 1, "one text of two records")


# Drawn texts


def damaged(rng, m, text):
    """A text with one thing done to it, which may leave it good."""
    kind = rng.randrange(8)
    lines = text.split(b"\n")[:-1] or [b"1"]
    place = rng.randrange(len(lines))
    if kind == 0:
        at = rng.randrange(len(text) + 1)
        return text[:at] + bytes([rng.choice(b"0123456789^_- \n\n\r\t+x\0\xff")]) + text[at + rng.randrange(2):]
    if kind == 1:
        return text[:rng.randrange(len(text) + 1)]
    if kind == 2:
        lines[place] = rng.choice(BROKEN)
    elif kind == 3:
        lines[place] += f" {rng.choice((m, m + 1, rng.randint(m, 99), 10**rng.randint(3, 40)))}{rng.choice('^_')}".encode()
    elif kind == 4:
        lines[place] += b" 0^" * rng.randint(9, 13)
    elif kind == 5:
        lines[place] = product(rng.choice((HEAVIEST, 2**59, 2**63, 10**rng.randint(17, 60))), *["0^"] * rng.randrange(3))
    elif kind == 6:
        lines[place:place] = [rng.choice(lines)] * rng.randint(1, 4)
    else:
        lines[place] = bytes(rng.choice(b"0123 ^_-") for _ in range(rng.randrange(9)))
    return joined(*lines)


def check_drawn(calls):
    """Half of them good, with enough work and output; of the others some text, work, output or mode count is not."""
    rng = calls.rng
    for i in range(DRAWN):
        m = 64 if rng.random() < 0.1 else rng.randint(1, 5)
        text = drawn_text(rng, m, 6 if i % 50 == 0 else 4)
        if i % 2:
            need, room = work_for(text) + rng.choice((0, 0, 1, 30)), 32 + 24 * 200
            assert calls.judge("drawn texts, good", "import", m, text, need, room).numbers[0] == 0
            continue
        kind = rng.randrange(10)
        if kind < 7:
            text = damaged(rng, m, text)
        if kind == 7:
            m = rng.choice((0, 65, rng.getrandbits(64) | 65))
        need = work_for(text) if kind != 8 else rng.randrange(work_for(text) + 1)
        room = 32 + 24 * 200 if kind != 9 else rng.randrange(120)
        calls.judge("drawn texts, damaged, or with too little memory", "import", m, text, min(need, 1 << 20), room)


ladder_text.check()
run(SEED, (
    check_examples, check_broken, check_ends, check_modes, check_m, check_coefficients, check_sums, check_ladders, check_repeats,
    check_order, check_lengths, check_many, check_longest, check_exports, check_coefficients_out, check_back, check_drawn,
))
