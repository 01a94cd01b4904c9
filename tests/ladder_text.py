#!/usr/bin/env python3
"""Ladder text as the specification has it: its grammar, lines multiplied out ladder by ladder, and records as text.

Nothing here comes from the library, which is compared with it. A line is a coefficient and its ladders, leftmost first, each
(creates, mode) as rule.py has them.

    python3 tests/ladder_text.py     checks this file against itself and the specification's example
"""
import collections
import functools
import itertools
import re
import sys

import records
import rule

MAX_LADDERS, MAX_TEXT = 12, 1 << 20
NUMBER = rb"(?:0|[1-9][0-9]*)"
LINE = re.compile(rb"(-?" + NUMBER + rb")((?: " + NUMBER + rb"[\^_])*)")
LADDER = re.compile(rb"(" + NUMBER + rb")([\^_])")

if hasattr(sys, "set_int_max_str_digits"):
    sys.set_int_max_str_digits(0)  # a number may be of any length

Line = collections.namedtuple("Line", "coefficient ladders")


# Reading


def parsed(line):
    """A line without its line feed, or None where it breaks the grammar."""
    found = LINE.fullmatch(line)
    if not found:
        return None
    ladders = tuple((sign == b"^", int(mode)) for mode, sign in LADDER.findall(found[2]))
    return Line(int(found[1]), ladders)


def read(text):
    """The lines, None for one that breaks the grammar: so does what stands after the last line feed."""
    *whole, rest = text.split(b"\n")
    return [parsed(line) for line in whole] + [None] * bool(rest)


def line_refusal(m, line):
    """(number, operand) of a line, or None: 16, 2, 17."""
    if line is None:
        return 16, 0
    if any(mode >= m for _, mode in line.ladders):
        return 2, 1
    return (17, 0) if len(line.ladders) > MAX_LADDERS else None


def refusal(m, lines, work_len):
    """(number, operand, place), or None: 1; then per line 16, 2, 17; then 8 and 7 over all lines."""
    if not 1 <= m <= records.MAX_MODES:
        return 1, 1, 0
    for place, line in enumerate(lines):
        fault = line_refusal(m, line)
        if fault:
            return *fault, place
    if weight(lines) > records.MAX_WEIGHT:
        return 8, 0, 0
    return (7, 0, 0) if work_for(lines) > work_len else None


def weight(lines):
    """The sum of the coefficients' magnitudes, each times 2 to the number of its ladders."""
    return sum(abs(line.coefficient) << len(line.ladders) for line in lines)


def work_for(lines):
    """The bytes of work that lines need, whether they vanish or not."""
    return 48 * sum(1 << len(line.ladders) for line in lines)


# Multiplying out


@functools.lru_cache(1 << 16)
def multiplied_out(ladders):
    """The rows of a product of ladders, brought into order one ladder at a time."""
    terms = {(0, 0): 1}
    for creates, mode in ladders:
        terms = rule.times_ladder(terms, creates, mode)
    return [(ann, cre, c) for (cre, ann), c in terms.items()]


def acts(ladders, ket):
    """The ladders on a word, the rightmost first: the new word and the sign, or None."""
    word, sign = ket, 1
    for creates, mode in reversed(ladders):
        step = rule.ladder(creates, mode, word)
        if step is None:
            return None
        word, sign = step[0], sign * step[1]
    return word, sign


def rows_of(lines):
    """The rows of the sum of all lines, in the record's order."""
    return records.joined((ann, cre, c * line.coefficient) for line in lines for ann, cre, c in multiplied_out(line.ladders))


# Writing


def line_of(ann, cre, c):
    ladders = [f" {mode}^" for mode in rule.bits(cre)] + [f" {mode}_" for mode in rule.bits(ann)]
    return f"{c}{''.join(ladders)}\n".encode()


def text_of(rows):
    """One line a row, in the order given."""
    return b"".join(line_of(*row) for row in rows)


# The two calls


def import_(m, text, work_len, out_len):
    lines = read(text)
    fault = refusal(m, lines, work_len)
    if not fault:
        rows = rows_of(lines)
        fault = records.verdict(rows, out_len)
        assert not fault or fault[0] != 9, "the weight was judged before"
    if fault:
        return records.refused(fault, work_len, out_len)
    return records.written(records.encode(m, rows), out_len, wiped=(bytes(work_len),))


def export(a, out_len):
    fault = records.refusal(a, 1)
    if not fault:
        text = text_of(records.decode(a)[1])
        fault = (11, 0, 0) if len(text) > out_len else None
    return records.refused(fault, out_len) if fault else records.written(text, out_len)


# This file against itself

GOOD = {
    b"0": (0, ()), b"-0": (0, ()), b"7": (7, ()), b"-7": (-7, ()), b"10": (10, ()), b"-100 0^": (-100, ((1, 0),)),
    b"1 3^ 0_": (1, ((1, 3), (0, 0))), b"-0 0_ 0_": (0, ((0, 0), (0, 0))), b"5 10^ 63_ 64^": (5, ((1, 10), (0, 63), (1, 64))),
    b"18446744073709551616 4294967296_": (2**64, ((0, 2**32),)),
}
# what is no line: numbers, signs, spaces, ladders, bytes that are none of a line's
BROKEN = [
    b"", b"-", b"--1", b"- 1", b"+1", b"+0", b"00", b"01", b"-01", b"-00", b"1-", b"1.0", b"1e3", b"0x1", b"1,000", b"1_", b"1^",
    b" ", b" 1", b"1 ", b"  ", b"1 0^ ", b"1  0^", b"1 0^  0_", b"1\t0^", b"\t1", b"1\t", b"1\r", b"\r", b"1 0^\r", b"1\v0^",
    b"1\f", b"1 0", b"1 0 ^", b"1 ^", b"1 _", b"1 ^0", b"1 _0", b"1 00^", b"1 01_", b"1 -0^", b"1 -1_", b"1 +1^", b"1 0^^",
    b"1 0^_", b"1 0__", b"1 0^0_", b"1 0^,1_", b"1 0^ 1", b"1 0^ 1 ", b"1 0^ _", b"0^", b"0^ 1_", b"-0^", b"^", b"_", b"1 0+",
    b"1 0-", b"1 0*", b"1 0^ -1", b"1 0^ 1^ 01_", b"1 0^ # a remark", b"# a remark", b"1 {0|1}", b"a", b"1a", b"1 a^", b"1 0a",
    b"1\0", b"\0", b"1 0^\0", b"1\x80", b"\xef\xbb\xbf1", b"\xff\xfe1\0", "1\N{NO-BREAK SPACE}0^".encode(),
    "\N{MINUS SIGN}1".encode(), "\N{ARABIC-INDIC DIGIT ONE}".encode(), "1 \N{FULLWIDTH DIGIT ZERO}^".encode(),
]


def check_grammar():
    for line, expected in GOOD.items():
        assert parsed(line) == expected, line
    for line in BROKEN:
        assert parsed(line) is None, line
    assert read(b"") == [] and read(b"1\n") == [(1, ())] and read(b"1\n\n") == [(1, ()), None]
    assert read(b"1") == [None] and read(b"1\n2") == [(1, ()), None] and read(b"\n") == [None]
    return len(GOOD), len(BROKEN)


def check_example():
    """Case 14, out and in, by way of the two hops that it is the commutator of."""
    text, hops = b"1 0^ 0_\n-1 1^ 1_\n", b"1 0^ 1_ 1^ 0_\n-1 1^ 0_ 0^ 1_\n"
    assert text_of([(1, 1, 1), (2, 2, -1)]) == text
    assert import_(2, text, 384, 80) == records.Answer([0, 0, 0, 80, 0, 0, 0, 0], (bytes(384), records.EXAMPLE))
    assert import_(2, hops, 1536, 80).lent[1] == records.EXAMPLE
    assert export(records.EXAMPLE, 20) == records.Answer([0, 0, 0, 17, 0, 0, 0, 0], (text + bytes(3),))
    assert import_(2, b"", 0, 32).lent[1] == records.encode(2, []) and export(records.encode(2, []), 0).numbers == [0] * 8
    rows = [(0, 0, 3), (0, 2**63 + 1, -2), (32, 32, -3)]
    assert import_(64, b"2 63^ 0^\n3 5_ 5^\n", 384, 104).lent[1] == records.encode(64, rows)


def check_order():
    """Faults of lines, earlier lines first; then 8, 7, 10, 11."""
    for numbers, m, text, work, room in [
        ((1, 1, 0), 0, b"x", 0, 0), ((1, 1, 0), 65, b"", 0, 32), ((16, 0, 0), 2, b"1 2^ x\n", 0, 0),
        ((2, 1, 0), 2, b"1 2^" + b" 0^" * 12 + b"\n", 0, 0), ((17, 0, 0), 2, b"1" + b" 0^" * 13 + b"\n", 0, 0),
        ((2, 1, 1), 2, b"1\n1 2_\nx\n", 0, 0), ((16, 0, 2), 2, b"1\n1\n1", 0, 0), ((8, 0, 0), 1, b"%d 0^\n" % (2**59 + 1), 0, 0),
        ((7, 0, 0), 1, b"%d 0^\n" % 2**59, 95, 0), ((11, 0, 0), 1, b"%d 0^\n" % 2**59, 96, 55), ((0, 0, 0), 1, b"1 0^\n", 96, 56),
    ]:
        assert import_(m, text, work, room).numbers[:3] == list(numbers), text
    many = b"".join(line_of(ann, 0, 1) for ann in range(2049))
    assert import_(12, many, 1 << 24, 0).numbers[0] == 10 and import_(12, many + b"-1\n", 1 << 24, 0).numbers[0] == 11


def check_products(m, most):
    """Products of up to so many ladders on m modes, multiplied out, act on every word as their ladders one after the other."""
    count = 0
    for n in range(most + 1):
        for ladders in itertools.product(itertools.product((0, 1), range(m)), repeat=n):
            rows = multiplied_out(ladders)
            assert len(rows) <= 1 << n
            for ket in range(1 << m):
                step = acts(ladders, ket)
                expected = {step[0]: step[1]} if step else {}
                got = {bra: records.element_of(rows, bra, ket) for bra in range(1 << m)}
                assert {bra: c for bra, c in got.items() if c} == expected, (ladders, ket)
            count += 1
    return count


def check():
    """All of it, with what was compared; the first thing that is not so is an AssertionError."""
    print("the grammar: {} lines that are lines and {} that are not".format(*check_grammar()))
    check_example()
    check_order()
    print("the specification's example and the order of refusals: as written there")
    for m, most in ((1, 8), (2, 5), (3, 4)):
        count = check_products(m, most)
        print(f"{count} products of up to {most} ladders on {m} modes, multiplied out, act as their ladders on every word")


if __name__ == "__main__":
    check()
