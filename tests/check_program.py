#!/usr/bin/env python3
"""The program `commutator`, proved and built, fed inputs of every kind: its whole standard output, byte by byte, against
records.py and the stored replies in answers/program.txt. Nothing else comes from it: no error output, and status 0.

11 is not among its refusals: an output of 49,184 bytes holds 2,048 terms, and a result with more is refused with 10
before (`never_eleven` in crates/reply/proofs/Theorems.antt).

    python3 tests/check_program.py --store     writes answers/program.txt anew, from records.py
"""
import collections
import os
import random
import subprocess
import sys

import draws
import face
import records
import rule

SEED = 20261122
WORK, ROOM = 65520, 49184
LONGEST = 2 * ROOM  # bytes of an input that may be accepted
STORED = os.path.join(face.ROOT, "tests", "answers", "program.txt")
RUN = os.path.join(face.ROOT, "tools", "run.sh"), "commutator"
MOST = 60  # seconds for one run


def line(*fault):
    return b"refused %d %d %d\n" % fault


def expected(data):
    """The record or the line. The first record ends at its header's total, and the second is all that follows."""
    total = int.from_bytes(data[24:28], "little")
    if len(data) < 32 or total > len(data):
        return line(1, 1, 0)
    answer = records.commutator(data[:total], data[total:], WORK, ROOM)
    return line(*answer.numbers[:3]) if answer.numbers[0] else answer.lent[1][:answer.numbers[3]]


def shown(reply):
    """A reply for a message or the stored file: the line without its line feed, or the record in hexadecimal."""
    return reply[:-1].decode() if reply.startswith(b"refused ") else reply.hex()


class Program:
    """Runs of the program, and how often each reply was to be met."""

    def __init__(self):
        self.tally, self.met = face.Tally(), collections.Counter()

    def judge(self, test, data, reply=None, pieces=None):
        """Compares one run, with the input as it is or in pieces. Gives the expected reply."""
        reply = expected(data) if reply is None else reply
        got = in_pieces(pieces) if pieces else whole(data)
        self.tally.same(test, got, ran(reply), f"an input of {len(data)} bytes, {data[:200].hex()}")
        self.met[" ".join(shown(reply).split()[:3]) if reply.startswith(b"refused") else "a record"] += 1
        return reply

    def close(self):
        print("runs by the reply that is expected, without its place:")
        for reply in sorted(self.met, key=lambda reply: (len(reply), reply)):
            print(f"  {reply:14}{self.met[reply]:6}")
        self.tally.close()


def ran(reply):
    """What a run is to come to: status, standard output, error output."""
    return 0, reply, b""


def whole(data):
    run = subprocess.run(RUN, input=data, capture_output=True, timeout=MOST)
    return run.returncode, run.stdout, run.stderr


def in_pieces(pieces):
    """A run whose input comes bit by bit."""
    run = subprocess.Popen(RUN, stdin=subprocess.PIPE, stdout=subprocess.PIPE, stderr=subprocess.PIPE)
    try:
        for piece in pieces:
            run.stdin.write(piece)
            run.stdin.flush()
    except BrokenPipeError:
        pass  # it reads no more than the longest input that counts
    out, err = run.communicate(timeout=MOST)
    return run.returncode, out, err


# Small inputs, each of one kind


def ladders(b, more=0, c=1):
    """{|0..b-1}, and {0..b-1|} with so many further creations: 2^b rows in one order, and one in the other."""
    word = (1 << b) - 1
    return records.encode(64, [(word, 0, c)]) + records.encode(64, [(0, word, c)] + [(0, 1 << 30 + i, c) for i in range(more)])


def small_inputs():
    """(what it is, input) of every refusal that the program can give, and some records."""
    a, b = records.encode(2, [(2, 1, 1)]), records.encode(2, [(1, 2, 1)])  # {0|1} and {1|0}
    two = [(1, 1, 1), (2, 2, -1)]
    outside, high, like, below = [(4, 1, 1)], [(1, 1, 1), (2, 4, 1)], [(1, 1, 1), (1, 1, 1)], [(2, 2, 1), (1, 1, 1)]
    zero, heavy, least = [(1, 1, 1), (2, 2, 0)], [(1, 1, 2**60), (2, 2, -1)], [(1, 1, -2**63)]
    faults = [("2 at term 0", outside), ("2 at term 1", high), ("3, like terms", like), ("3, falling terms", below),
              ("4 at term 1", zero), ("5 by one", heavy), ("5, the least coefficient", least), ("2 before 4", [(4, 1, 0)])]
    faults = [(what, records.encode(2, rows)) for what, rows in faults]
    headers = [("version 2", draws.with_field(a, 0, 2)), ("no modes", draws.with_field(a, 4, 0)),
               ("65 modes", draws.with_field(a, 4, 65)), ("two terms told, one there", draws.with_field(a, 8, 2)),
               ("last field not zero", draws.with_field(a, 28, 1)), ("total one byte low", draws.with_field(a, 24, 55))]
    yield "case 14", a + b
    yield "nothing", b""
    yield "first: one byte", a[:1]
    yield "first: half a header", a[:28]
    yield "first: a byte of its header missing", a[:31]
    yield "first: its header alone", a[:32]
    yield "first: a byte missing", a[:55]
    yield "first: total past the end", draws.with_field(a, 24, 57)
    yield "first: total far past the end", draws.with_field(a, 24, 2**32 - 1) + b
    for what, record in headers:
        yield f"first: {what}", record + b
        yield f"second: {what}", a + record
    yield "second: missing", a
    yield "second: one byte", a + b[:1]
    yield "second: a byte of its header missing", a + b[:31]
    yield "second: its header alone", a + b[:32]
    yield "second: a byte missing", a + b[:55]
    yield "second: a byte after it", a + b + b"\0"
    yield "second: a line feed after it", a + b + b"\n"
    yield "second: a third record after it", a + b + a
    for what, record in faults:
        yield f"first: {what}", record + b
        yield f"second: {what}", a + record
        yield f"first: {what}, and no second", record
        yield f"second: {what}, and a byte after it", a + record + b"\0"
    yield "both: 2 of the first before 1 of the second", records.encode(2, outside) + b[:40]
    yield "6", a + records.encode(3, [(1, 2, 1)])
    yield "6 before 8", records.encode(2, [(1, 2, 2**59)]) + records.encode(3, [(1, 2, 2**59)])
    yield "8 by one", records.encode(2, [(2, 1, 2**30)]) + records.encode(2, [(1, 2, 2**30 + 1)])
    yield "8 before 7", ladders(12, 0, 2**31)
    yield "weights and a result of 2^60", records.encode(2, [(1, 1, 2**30)]) + records.encode(2, [(0, 1, 2**30)])
    yield "7, 12 branching modes", ladders(12)
    yield "7, 64 branching modes", records.encode(64, [(2**64 - 1, 0, 1)]) + records.encode(64, [(0, 2**64 - 1, 1)])
    yield "10 by one", ladders(11, 1)
    yield "10 before 9", ladders(11, 1, 2**29)
    yield "9, one branching mode", ladders(1, 0, 2**30)
    yield "no terms in either", records.encode(5, []) + records.encode(5, [])
    yield "no terms left", records.encode(2, [(1, 1, 3)]) + records.encode(2, [(2, 2, 5)])
    yield "an operator and itself", records.encode(2, two) * 2
    yield "64 modes", records.encode(64, [(1, 2**63, -7)]) + records.encode(64, [(2**63, 1, 2**40)])
    yield "two terms and two", records.encode(3, two) + records.encode(3, [(1, 2, 4), (6, 1, -3)])


def stored_replies():
    """(what it is, input, reply) of answers/program.txt."""
    with open(STORED, encoding="utf-8") as file:
        for text in file:
            if not text.startswith("#"):
                what, data, reply = (field.strip() for field in text.rstrip("\n").split(" | "))
                yield what, bytes.fromhex(data), (reply + "\n").encode() if reply.startswith("refused") else bytes.fromhex(reply)


def store():
    with open(STORED, "w", encoding="utf-8") as file:
        file.write("# Inputs of the program `commutator`, and what it replies, worked out ladder by ladder by tests/records.py.\n"
                   "# Written by tests/check_program.py --store.\n"
                   "# what it is | the input in hexadecimal | the line without its line feed, or the record in hexadecimal\n")
        for what, data in small_inputs():
            file.write(f"{what} | {data.hex()} | {shown(expected(data))}\n")


def check_stored(program):
    replies = list(stored_replies())
    for what, data, reply in replies:
        program.judge("stored replies, of every refusal", data, reply)
    kinds = {shown(reply).split()[1] for _, _, reply in replies if reply.startswith(b"refused")}
    program.tally.same("every refusal but 11 is among the stored", kinds, {str(n) for n in range(1, 11)}, STORED)
    now = [(what, data, expected(data)) for what, data in small_inputs()]
    program.tally.same("the stored replies are those of records.py", replies, now, STORED)


def check_example(program):
    """The specification's example: a hop from mode 1 to mode 0, and the hop back."""
    program.judge("the specification's example", records.encode(2, [(2, 1, 1)]) + records.encode(2, [(1, 2, 1)]), records.EXAMPLE)


# Drawn inputs


def check_headers(program, rng):
    """Damaged headers and lengths of either record: 1 for it, in order."""
    for m in (2, 64):
        right = records.encode(m, draws.many(rng, m, 4))
        for wrong in draws.damaged_headers(rng, right):
            assert program.judge("a damaged header or length of the second", right + wrong) == line(1, 2, 0)
            program.judge("a damaged header or length of the first", wrong + right)
    for length in range(33):
        assert program.judge("a first header that ends early", right[:length]) == line(1, 1, 0)


def check_surplus(program, rng):
    """Bytes after the second record, however many, of records of every size."""
    a, b = (records.encode(64, draws.many(rng, 64, 3)) for _ in "ab")
    full = records.encode(64, [(ann, cre, c << 45) for ann, cre, c in draws.many(rng, 64, 2048)])
    for first, second in ((a, b), (a, full), (full, b), (full, full)):
        for n in (1, 24, 56, ROOM - 1, ROOM, ROOM + 1, LONGEST, 4 * LONGEST):
            for filled in (bytes(n), rng.randbytes(n)):
                reply = program.judge("bytes after the second record", first + second + filled)
                assert reply == line(1, 2, 0)
    damaged = records.encode(64, [(0, 0, 0), *draws.many(rng, 64, 2)])
    assert program.judge("bytes after the second record", damaged + b + bytes(LONGEST)) == line(4, 1, 0)
    assert program.judge("two longest records", full + full) == line(8, 0, 0)
    assert program.judge("a first record that is too long", records.encode(64, [(0, 0, 1)] * 2049) + a) == line(1, 1, 0)


def check_damaged(program, rng):
    """2 to 5 of either record, with places, before 6 and before anything of the other record that comes later."""
    for m in (7, 64):
        good = draws.many(rng, m, 6)
        right, other = records.encode(m, good), records.encode(m % 64 + 1, [])
        for number, place, rows in [*draws.damaged_terms(rng, m, good), *draws.two_faults(rng, m, good)]:
            wrong = records.encode(m, rows)
            assert program.judge(f"refusal {number} of the first", wrong + rng.choice((right, wrong, b"", other))) == line(number, 1, place)
            assert program.judge(f"refusal {number} of the second", rng.choice((right, other)) + wrong) == line(number, 2, place)
            assert program.judge("1 of the second before its 2 to 5", right + wrong + b"\0") == line(1, 2, 0)


def check_products(program, rng):
    """Drawn operators, and results of every size up to the longest."""
    for _ in range(60):
        m = rng.randint(1, 64)
        near = rng.sample(range(m), min(m, 6))
        a, b = (records.encode(m, draws.rows(rng, m, rng.randint(0, 6), rng.choice(("few", "body")), True, near)) for _ in "ab")
        program.judge("drawn operators", a + b)
    high = [(ann << 1, cre << 1, c) for ann, cre, c in draws.many(rng, 63, 2600) if rule.size(ann) + rule.size(cre) & 1]
    one = records.encode(64, [(0, 1, 1)])  # {0|}, which anticommutes with terms of an odd number of ladders on other modes
    for n in (1, 100, 1000):
        reply = program.judge("results of up to 1,000 terms", one + records.encode(64, high[:n]))
        assert len(reply) == 32 + 24 * n
    for b in range(12):
        reply = program.judge("0 to 11 branching modes", ladders(b))
        assert len(reply) == 32 + 24 * (2**b - (b % 2 == 0))  # the rows of both orders that contract nothing cancel if b is even
    assert len(program.judge("a result of 2,048 terms", ladders(11))) == ROOM
    assert program.judge("a result of 2,049 terms", ladders(11, 1)) == line(10, 0, 0)


def check_work(program, rng):
    """The work exactly full, and one row more, over both orders: {0|0} and {|w} on other modes commute, with a row in each
    order, and {0|} has one row after {0|0} and none before it."""
    number, none = [(1, 1, 1)], records.encode(64, [])
    for words in (range(1, 1366), sorted(rng.sample(range(1, 2**63), 1365))):
        fits = [(word << 1, 0, rng.choice((-2, -1, 1, 3))) for word in words]
        for terms, branches, reply in ((fits, 2730, none), ([(0, 1, 1), *fits], 2731, line(7, 0, 0))):
            assert records.branch_count(number, terms) + records.branch_count(terms, number) == branches
            for pair in ((number, terms), (terms, number)):
                data = b"".join(records.encode(64, rows) for rows in pair)
                assert program.judge(f"{branches:,} branches in a work of {WORK:,} bytes", data) == reply


def check_pieces(program, rng):
    """The same input byte by byte, and with its records apart."""
    a, b = (records.encode(3, draws.many(rng, 3, 3)) for _ in "ab")
    full = ladders(11)
    for data, cuts in ((a + b, 1), (a + b[:-1], 1), (a[:40], 7), (full, 9), (a + b + bytes(LONGEST), 4000)):
        program.judge("input in pieces", data, pieces=[data[i:i + cuts] for i in range(0, len(data), cuts)])


def main():
    if sys.argv[1:] == ["--store"]:
        return store()
    rng, program = random.Random(SEED), Program()
    check_stored(program)
    check_example(program)
    for check in (check_headers, check_surplus, check_damaged, check_products, check_pieces, check_work):
        check(program, rng)
    program.close()


main()
