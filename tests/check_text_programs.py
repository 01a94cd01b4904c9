#!/usr/bin/env python3
"""The programs `import_text` and `export_text`, proved and built, fed inputs of every kind: their whole standard output, byte by
byte, against ladder_text.py; and both with `commutator` between them. Nothing else comes from them: no error output, and
status 0.

A text of more than 1,048,576 bytes is refused with 7 before anything else is looked at, the argument too. 11 is not among
their refusals: an output of 49,184 bytes holds every record, and one of 1,048,576 every text (`longest_text` in
crates/term_lines/proofs/Lengths.antt).
"""
import collections
import os
import random
import subprocess
import tempfile

import draws
import face
import ladder_text
import records
from ladder_text import BROKEN, GOOD, MAX_TEXT, line_of, text_of

SEED = 20270106
WORK, ROOM = 48 * 65536, 49184  # bytes that `import_text` works in, and those of the longest record
RUN = os.path.join(face.ROOT, "tools", "run.sh")
MOST = 60  # seconds for one run
EXPORTED = b"1 0^ 0_\n-1 1^ 1_\n"


def line(*fault):
    return b"refused %d %d %d\n" % tuple(fault)


def reply(answer):
    """What a program writes for an answer: the line, or the record or text."""
    return line(*answer.numbers[:3]) if answer.numbers[0] else answer.lent[-1][:answer.numbers[3]]


def import_text(m, text):
    """m is the mode count that the argument names, 0 where it is no number."""
    return line(7, 0, 0) if len(text) > MAX_TEXT else reply(ladder_text.import_(m, text, WORK, ROOM))


def export_text(a):
    return reply(ladder_text.export(a, MAX_TEXT))


def ran(data, *words):
    run = subprocess.run([RUN, *words], input=data, capture_output=True, timeout=MOST)
    return run.returncode, run.stdout, run.stderr


def in_pieces(pieces, *words):
    """A run whose input comes bit by bit."""
    run = subprocess.Popen([RUN, *words], stdin=subprocess.PIPE, stdout=subprocess.PIPE, stderr=subprocess.PIPE)
    try:
        for piece in pieces:
            run.stdin.write(piece)
            run.stdin.flush()
    except BrokenPipeError:
        pass  # it reads no more than the longest input that counts
    out, err = run.communicate(timeout=MOST)
    return run.returncode, out, err


class Programs:
    """Runs of both, and how often each reply was to be met."""

    def __init__(self):
        self.tally, self.met = face.Tally(), collections.Counter()

    def judge(self, test, expected, got, program, about):
        kind = " ".join(expected.decode().split()[:2]) if expected.startswith(b"refused ") else "accepted"
        self.met[program, kind] += 1
        shown = about if len(about) < 200 else about[:200] + b".."
        self.tally.same(test, got, (0, expected, b""), f"{program} {shown!r}")
        return expected

    def imports(self, test, m, text):
        """One run of import_text. Gives the expected reply."""
        return self.judge(test, import_text(m, text), ran(text, "import_text", str(m)), "import_text", text)

    def exports(self, test, a):
        return self.judge(test, export_text(a), ran(a, "export_text"), "export_text", a)

    def close(self):
        print("runs by the reply that is expected, without its operand and place:")
        for (program, kind), count in sorted(self.met.items(), key=lambda item: (item[0][0], len(item[0][1]), item[0][1])):
            print(f"  {program:13}{kind:14}{count:6}")
        self.tally.close()


# Both, by hand


def check_example(programs, _):
    """Two hops as text, their records one after the other to `commutator`, and what comes out as text again."""
    hops = [ran(text, "import_text", "2")[1] for text in (b"1 0^ 1_\n", b"1 1^ 0_\n")]
    programs.tally.same("the hops as records", hops, [records.encode(2, [(2, 1, 1)]), records.encode(2, [(1, 2, 1)])], "the hops")
    got = ran(ran(b"".join(hops), "commutator")[1], "export_text")
    programs.tally.same("text, commutator, text", got, (0, EXPORTED, b""), "the hops")
    both = "(run import_text 2 <one; run import_text 2 <two) | run commutator | run export_text"
    got = piped(both, one=b"1 0^ 1_\n", two=b"1 1^ 0_\n")
    programs.tally.same("text, commutator, text, in a pipe", got, EXPORTED, both)
    assert programs.imports("the example, in", 2, EXPORTED) == records.EXAMPLE
    assert programs.exports("the example, out", records.EXAMPLE) == EXPORTED
    assert programs.imports("no lines", 5, b"") == records.encode(5, [])
    assert programs.exports("no terms", records.encode(5, [])) == b""


def piped(command, **files):
    """What a line of the shell writes, in a folder with these files."""
    with tempfile.TemporaryDirectory() as folder:
        for name, data in files.items():
            with open(os.path.join(folder, name), "wb") as file:
                file.write(data)
        whole = f"run() {{ '{RUN}' \"$@\"; }}; {command}"
        return subprocess.run(["bash", "-c", whole], cwd=folder, capture_output=True, timeout=4 * MOST).stdout


# The argument of import_text


def check_argument(programs, _):
    """None, two, and what is no number from 1 to 64: 1 before any line is looked at."""
    wrong = ["", "0", "65", "-1", "+2", "02", "002", "x", "2x", "x2", "1e1", "2.0", "100", "256", "258", " 2", "2 ", "2\n", "\xb2"]
    long = [str(2**32 + 2), str(2**60 + 1), str(2**64 + 2), "0" * 98 + "64", "9" * 8, "9" * 9, "9" * 40, "9" * 100]
    for words in [], ["2", "2"], ["2", ""], ["2", "3", "4"], *([word] for word in wrong + long):
        for text in (EXPORTED, b"", b"x", b"1 99^\n"):
            got = ran(text, "import_text", *words)
            programs.judge("a bad mode count, or none", line(1, 1, 0), got, "import_text", " ".join(words).encode())
    for m in range(1, 65):
        assert programs.imports("mode counts from 1 to 64", m, line_of(1 << m - 1, 0, 3))[4] == m
        assert programs.imports("a mode that is not below them", m, b"1\n1 %d^\n" % m) == line(2, 1, 1)


# Texts


def check_lines(programs, _):
    for good in GOOD:
        programs.imports("lines", 64, b"1\n" + good + b"\n")
    for place, broken in enumerate(BROKEN):
        lines = [b"1 0^"] * 3
        lines[place % 3] = broken
        assert programs.imports("broken lines", 2, b"".join(text + b"\n" for text in lines)) == line(16, 0, place % 3)
    for end in range(len(EXPORTED)):
        programs.imports("a text that is cut", 2, EXPORTED[:end])


def check_refusals(programs, rng):
    """One or more of each, in order."""
    twelve, thirteen, heavy = b" 0^" * 12, b" 0^" * 13, b"%d" % (2**60 + 1)
    for expected, text in [
        ((16, 0, 0), b"1 2^ x\n"), ((2, 1, 0), b"1" + twelve + b" 2^\n"), ((17, 0, 0), b"1" + thirteen + b"\n"),
        ((17, 0, 1), b"1\n0" + thirteen + b"\nx\n"), ((2, 1, 0), b"1 " + b"9" * 40 + b"^\n"), ((8, 0, 0), heavy + b"\n"),
        ((8, 0, 0), b"-" + b"7" * 5000 + b"\n"), ((8, 0, 0), b"%d 0^\n" % (2**59 + 1)),
        ((8, 0, 0), heavy + b"\n1" + twelve + b"\n"), ((7, 0, 0), (b"1" + twelve + b"\n") * 100),
    ]:
        assert programs.imports("refusals in order", 2, text) == line(*expected), expected
    for text in (b"%d\n" % 2**60, b"-%d 0_\n" % 2**59, b"%d\n-%d\n" % (2**59, 2**59)):
        assert not programs.imports("a weight of 2^60", 2, text).startswith(b"refused")


def check_work(programs, _):
    """The work exactly full, and a line more: 65,536 lines without ladders."""
    lines = WORK // 48
    assert not programs.imports(f"{lines:,} lines in a work of {WORK:,} bytes", 3, b"1\n" * lines).startswith(b"refused")
    assert programs.imports(f"{lines + 1:,} lines in a work of {WORK:,} bytes", 3, b"1\n" * (lines + 1)) == line(7, 0, 0)


def check_longest(programs, _):
    """1,048,576 bytes, accepted and refused, and a byte more, which is refused whatever else is wrong."""
    full = b"-10000000000000\n" * 65536
    texts = [full, b"1 0^ 1_\n" * (MAX_TEXT // 8), b"1" * (MAX_TEXT - 1) + b"\n", b"1" * MAX_TEXT, b"x" * MAX_TEXT, b"\n" * MAX_TEXT]
    assert {len(text) for text in texts} == {MAX_TEXT}
    assert programs.imports("1,048,576 bytes", 2, full) == records.encode(2, [(0, 0, -655360000000000000)])
    for text in texts:
        programs.imports("1,048,576 bytes", 2, text)
        for words in ["2"], [], ["65"], ["x"], ["2", "2"]:
            got = ran(text + b"\n", "import_text", *words)
            programs.judge("1,048,577 bytes", line(7, 0, 0), got, "import_text", " ".join(words).encode())
        assert programs.imports("1,048,576 bytes on 0 modes", 0, text) == line(1, 1, 0)
    for more in (1, 2, 4096, MAX_TEXT):
        assert programs.imports("more than 1,048,576 bytes", 2, full + b"1" * more) == line(7, 0, 0)


def drawn_line(rng, m):
    ladders = [f"{rng.randrange(m)}{rng.choice('^_')}" for _ in range(rng.randrange(6))]
    return " ".join([str(rng.randint(-99, 99)), *ladders]).encode() + b"\n"


def check_drawn(programs, rng):
    """Sums of drawn lines, some of them damaged."""
    for i in range(120):
        m = rng.choice((1, 3, 5, 64))
        text = b"".join(drawn_line(rng, m) for _ in range(rng.randrange(9)))
        if text and i % 4 == 0:
            at = rng.randrange(len(text))
            text = text[:at] + bytes([rng.choice(b"0123456789 ^_-\n\r+x")]) + text[at + 1:]
        programs.imports("drawn texts", m, text)


# Records


def check_records(programs, rng):
    """Records of every size, the longest text among them, and damaged ones."""
    for _ in range(60):
        m = rng.randint(1, 64)
        a = records.encode(m, draws.rows(rng, m, rng.randint(0, 12)))
        text = programs.exports("drawn records", a)
        back = programs.imports("their texts", m, text)
        if not back.startswith(b"refused"):
            assert back == a
    full = [(2**64 - 1, 2**64 - 1 ^ i << 40, -(2**49)) for i in range(2048)]
    assert len(programs.exports("2,048 terms of nearly all modes", records.encode(64, sorted(full)))) > 950000
    longest = records.encode(64, draws.many(rng, 64, 2048))
    assert len(longest) == ROOM
    programs.exports("2,048 terms", longest)
    for more in (b"\0", bytes(2), longest):
        assert programs.exports("more bytes than the longest record", longest + more) == line(1, 1, 0)
    for m in (2, 64):
        good = draws.many(rng, m, 4)
        right = records.encode(m, good)
        for wrong in draws.damaged_headers(rng, right):
            assert programs.exports("a damaged header or length", wrong) == line(1, 1, 0)
        for number, place, rows in [*draws.damaged_terms(rng, m, good), *draws.two_faults(rng, m, good)]:
            assert programs.exports("damaged terms", records.encode(m, rows)) == line(number, 1, place)
        for more in (b"\0", b"\n", right, bytes(ROOM), bytes(4 * ROOM)):
            assert programs.exports("bytes after the record", right + more) == line(1, 1, 0)
    for length in range(33):
        assert programs.exports("a header that ends early", right[:length]) == line(1, 1, 0)


def check_pieces(programs, rng):
    """The same input bit by bit."""
    a = records.encode(3, draws.many(rng, 3, 3))
    for text, cut in ((EXPORTED, 1), (EXPORTED[:-1], 1), (b"7 2^ 0_\n" * 300, 9)):
        pieces = [text[i:i + cut] for i in range(0, len(text), cut)]
        programs.judge("a text in pieces", import_text(3, text), in_pieces(pieces, "import_text", "3"), "import_text", text)
    for data, cut in ((a, 1), (a[:-1], 7), (a + bytes(ROOM), 4000)):
        pieces = [data[i:i + cut] for i in range(0, len(data), cut)]
        programs.judge("a record in pieces", export_text(data), in_pieces(pieces, "export_text"), "export_text", data)


def main():
    rng, programs = random.Random(SEED), Programs()
    for check in (check_example, check_argument, check_lines, check_refusals, check_work, check_longest, check_drawn,
                  check_records, check_pieces):
        check(programs, rng)
    programs.close()


main()
