"""Calls of the library beside their models: the same arguments (functions.py), and the whole answer compared.

Every function of the C face is called from Python by `Calls.call` and in no other way: garbage in everything lent for
writing, guards around all memory, and everything compared after the call.
"""
import os
import random
import sys

import face
import header
import records
from functions import ANSWER, CHANGED, FACE

MISSING = records.Answer(["no such function", *[0] * 7], ())


def garbage(rng, length):
    """Random bytes; in one of four some zeros first, in one of eight 255s only: what an earlier job might leave."""
    kind = rng.randrange(8)
    zeros = min(length, rng.choice((1, 8, 24, 32))) if kind < 2 else 0
    return bytes(zeros) + (b"\xff" * (length - zeros) if kind == 7 else rng.randbytes(length - zeros))


def first_other(got, expected):
    """Where two answers part, for a message."""
    for i, (a, b) in enumerate(zip(got.lent, expected.lent)):
        if len(a) != len(b):
            return f", buffer {i} has {len(a)} bytes, the model's {len(b)}"
        if a != b:
            at = next(j for j in range(len(b)) if a[j] != b[j])
            return f", buffer {i} at byte {at}: {a[at:at + 24].hex()}, not {b[at:at + 24].hex()}"
    return ""


def shown(args):
    """Arguments for a message, long ones cut."""
    texts = [arg.hex() if isinstance(arg, bytes) else str(arg) for arg in args]
    return ", ".join(text if len(text) <= 400 else f"{text[:400]}.. ({len(text)} characters)" for text in texts)


class Calls:
    """The functions of a table in a library, called with garbage in everything lent and guards around it."""

    def __init__(self, lib, seed, tally, rows=FACE, prefix="fermion_"):
        self.lib, self.tally, self.rows, self.prefix = lib, tally, rows, prefix
        self.rng, self.dirt = random.Random(seed), random.Random(seed + 1)  # for arguments; for garbage
        self.workspace = None  # buffers handed on, uncleaned, from call to call; None for new garbage in each
        self.refusals = {}  # (call, number that is expected): how often
        self.found = {}

    def function(self, name):
        """A function of the library with its types, or None; and what it takes."""
        if name not in self.found:
            function, kinds = getattr(self.lib, self.prefix + name, None), (*self.rows[name].takes, ANSWER)
            if function is not None:
                function.argtypes, function.restype = [t for kind in kinds for t in kind.passed], None
            self.found[name] = function, kinds
        return self.found[name]

    def guarded(self, kind, data):
        return face.Lent(self.dirt, data, 0 if kind.words else self.dirt.randrange(8))

    def to_write(self, kind, length, place):
        """Memory lent for writing, full of garbage, or of what the last call left in it."""
        known = {} if self.workspace is None or kind == ANSWER else self.workspace
        if (length, place) not in known:
            known[length, place] = self.guarded(kind, garbage(self.dirt, length))
        return known[length, place]

    def held(self, data):
        """Guarded bytes that a test keeps: given to calls in place of bytes, they are lent as the last call left them."""
        return self.guarded(CHANGED, data)

    def to_read(self, kind, arg, known):
        """Memory with what is to be read. An argument given twice is the same memory, unless a call may change it."""
        if isinstance(arg, face.Lent):
            return arg
        known = known if kind.role == "read" else {}
        if id(arg) not in known:
            known[id(arg)] = self.guarded(kind, records.words(arg) if kind.words else arg)
        return known[id(arg)]

    def call(self, name, *args):
        """The answer. Whether guards and everything only read were left as they were is compared here, for every call."""
        function, kinds = self.function(name)
        if function is None:
            self.judge_kept(name, args, False)
            return MISSING
        assert len(args) == sum(kind.is_given for kind in kinds), f"{name}: other arguments than its row has"
        given, known, passed, read, left = iter(args), {}, [], [], []
        for kind in kinds:
            arg = next(given) if kind.is_given else 8 * kind.entries
            if kind.role == "number":
                passed.append(arg)
                continue
            if kind.role == "written":
                memory, length = self.to_write(kind, arg, len(left)), arg
            else:
                memory, length = self.to_read(kind, arg, known), len(arg)
                assert kind.entries in (None, length), f"{name}: an array of another size"
            passed += [memory.pointer()] + [length] * (kind.entries is None)
            (read if kind.role == "read" else left).append(memory)
        function(*passed)
        kept = all(memory.guards_kept() for memory in (*read, *left)) and all(memory.as_before() for memory in read)
        self.judge_kept(name, args, kept)
        *lent, answer = (memory.settled() for memory in left)
        return records.Answer(records.numbers_in(answer), tuple(lent))

    def judge_kept(self, name, args, kept):
        about = "" if kept else f"{self.prefix}{name}({shown(args)})"
        self.tally.same(f"{name}: guards, and what is only read, left as they were", kept, True, about)

    def expected(self, name, *args):
        """The model's answer."""
        return self.rows[name].model(*args)

    def judge(self, test, name, *args):
        """Compares one call with its model, under the name of a test. Gives the expected answer."""
        return self.compare(test, name, args, self.call(name, *args), self.expected(name, *args))

    def compare(self, test, name, args, got, expected):
        """One comparison, which counts as one call of its function. Gives the expected answer."""
        self.refusals[name, expected.numbers[0]] = self.refusals.get((name, expected.numbers[0]), 0) + 1
        about = "" if got == expected else f"{self.prefix}{name}({shown(args)}){first_other(got, expected)}"
        self.tally.same(test, got, expected, about)
        return expected

    def judge_stored(self, name, got, rust, agrees, about):
        """A stored answer is the Rust's where its line is marked agree, and another where it is marked differs."""
        if agrees:
            self.tally.same(f"{name}: stored answers marked agree are the Rust's", got, rust, about)
        else:
            differs = got is not None and got != rust
            self.tally.same(f"{name}: stored answers marked differs are not", differs, True, about)

    def print_refusals(self):
        """How often each refusal was to be met, by the models, 0 standing for a call that is not refused."""
        numbers = sorted({number for _, number in self.refusals})
        print("calls by the number that is expected, 0 where not refused:")
        print(f"{'':28}" + "".join(f"{number:8}" for number in numbers))
        for name in dict.fromkeys(name for name, _ in self.refusals):
            row = (self.refusals.get((name, number), 0) for number in numbers)
            print(f"{name:28}" + "".join(f"{n or '-':>8}" for n in row))

    def judge_refusals(self, test, declared):
        """Of the functions whose rows name this test: every number that the header's order has for it was met, and 0."""
        for name in (name for name, row in self.rows.items() if row.test == test):
            met = sorted(number for of, number in self.refusals if of == name)
            self.tally.same(f"{name}: the header's refusals were all met", met, sorted({0, *declared[name].numbers}), name)


def run(seed, checks):
    """Each check on the library made for this machine, then how often each refusal was met, and the closing line."""
    lib, kind = face.load()
    print(f"called from Python: {kind}")
    calls = Calls(lib, seed, face.Tally())
    for check in checks:
        check(calls)
    calls.print_refusals()
    calls.judge_refusals(os.path.basename(sys.argv[0]), header.declared(header.text()))
    calls.tally.close()
