#!/usr/bin/env python3
"""The harness itself: calls of a function made for it (c_harness/lent.c), which does right or wrong as it is told, by the path
of every other call. What is right is accepted, and each fault is reported. And the table of functions is the header's."""
import contextlib
import ctypes
import glob
import io
import os
import subprocess
import tempfile

import face
import functions
import header
import records
from calls import MISSING, Calls
from functions import CHANGED, FACE, NUMBER, READ, READ_WORDS, WRITTEN, Row, array_changed, array_written

SEED = 20261216
TRIES = 25
HERE = os.path.join(face.ROOT, "tests")
NOWHERE = 99
READ_ONLY, LENT = {"a": 0, "b": 1, "words": 2}, {"report": 3, "shelf": 4, "out": 5, "table": 6, "answer": 7}
ANSWERS, KEPT = "the answer and what is left", "all: guards, and what is only read, left as they were"


def model(a, b, words, report, shelf, out_len, *_):
    """What lent.c does without a fault: the first 200 numbers are added to, all bytes but the last are changed."""
    added = [number + more for number, more in zip(report, [*words[:200], *[0] * 201])]
    turned = bytes(x ^ y for x, y in zip(shelf[:-1], b)) + shelf[min(len(b), max(0, len(shelf) - 1)):]
    out = a[:out_len]
    table = records.words([len(a), len(b), len(words)])
    return records.given(a is b, length=len(out), lent=(records.words(added), turned, out + bytes(out_len - len(out)), table))


ROWS = {
    "all": Row(model, (READ, READ, READ_WORDS, array_changed(201), CHANGED, WRITTEN, array_written(3), *(NUMBER,) * 4),
               "check_harness.py"),
    "none": Row(model, (), "check_harness.py"),
}


def library(folder):
    made = os.path.join(folder, "lent.so")
    subprocess.run(["gcc", "-std=c11", "-O1", "-Wall", "-Wextra", "-Werror", "-shared", "-fPIC", "-o", made,
                    os.path.join(HERE, "c_harness", "lent.c")], check=True)
    return ctypes.CDLL(made)


def arguments(rng, least=0):
    """Drawn arguments: of any length, or of at least so many bytes or words, and an output with zeros at its end. No byte
    and no word that is to be copied or added is 0."""
    some = lambda n: bytes(rng.randint(1, 255) for _ in range(n))
    a, b = some(rng.randint(least, 60)), some(rng.randint(least, 60))
    words = [rng.randint(1, 2**64 - 1) for _ in range(rng.randint(least, 205))]
    report = [rng.getrandbits(64) for _ in range(201)]
    shelf, out_len = rng.choice((2, 60, 300, 65536)), rng.randint(80, 120)
    if not least:
        shelf, out_len = rng.choice((0, 1, shelf)), rng.randrange(out_len)
    return [a, b, words, report, rng.randbytes(shelf), out_len]


class Trials:
    """Calls with one kind of fault, each with a tally of its own, and what the harness says of them."""

    def __init__(self, lib, tally):
        self.tally, self.calls = tally, Calls(lib, SEED, None, ROWS, "harness_")

    def judge(self, test, args, reported, fault=(0, 0, 0, NOWHERE), lent=None):
        """One call: exactly the tests named are reported, with a message for each. `lent` has held memory in place of bytes."""
        self.calls.tally, said, numbers = face.Tally(), io.StringIO(), [number % 2**64 for number in fault]
        with contextlib.redirect_stdout(said):
            got = self.calls.call("all", *(lent or args), *numbers)
            self.calls.compare(ANSWERS, "all", args, got, self.calls.expected("all", *args, *numbers))
        found = {name for name, (_, bad) in self.calls.tally.by_name.items() if bad}
        counted = sum(good + bad for good, bad in self.calls.tally.by_name.values())
        lines = said.getvalue().count(": differs at harness_all(")
        self.tally.same(test, (found, counted, lines), (set(reported), 2, len(reported)), fault)


def lengths(args):
    """The bytes of each memory."""
    a, b, words, _, shelf, out_len = args
    return dict(a=len(a), b=len(b), words=8 * len(words), report=1608, shelf=len(shelf), out=out_len, table=24, answer=64)


def check_right(trials):
    """Nothing is reported: memory of every length, the same memory twice, and memory that is handed on."""
    rng = trials.calls.rng
    for i in range(200):
        trials.judge("a call without a fault is accepted", arguments(rng, i % 2), [])
        a, _, *rest = arguments(rng)
        trials.judge("an argument given twice is the same memory", [a, a, *rest], [])
        a, b, words, report, _, out_len = arguments(rng, 2)
        trials.judge("memory that is changed is not shared", [a, b, words, report, a, out_len], [])
    trials.calls.workspace = {}
    for _ in range(50):
        trials.judge("memory handed on as it was left is accepted", [*arguments(rng)[:5], 80], [])
    trials.calls.workspace = None


def check_faults(trials):
    """One byte changed in or beside each memory; each memory that is to be written or changed left as it was."""
    rng = trials.calls.rng
    for _ in range(TRIES):
        args = arguments(rng, 2)
        for name, which in {**READ_ONLY, **LENT}.items():
            end, mask = lengths(args)[name], rng.randint(1, 255)
            for place in (-face.GUARD, -1, end, end + face.GUARD - 1):
                beside = "before" if place < 0 else "past"
                trials.judge(f"{name}: a byte {beside} it is reported", args, [KEPT], (which, place, mask, NOWHERE))
            for place in (0, rng.randrange(end), end - 1):
                test = f"{name}: a byte in it is reported"
                trials.judge(test, args, [KEPT if name in READ_ONLY else ANSWERS], (which, place, mask, NOWHERE))
        for name, left in LENT.items():
            trials.judge(f"{name}: left as it was is reported", args, [ANSWERS], (0, 0, 0, left))


def check_held(trials):
    """Memory that a test holds is lent as the last call left it, to be changed and to be read; a fault in it is reported."""
    rng = trials.calls.rng
    for _ in range(TRIES):
        a, b, words, report, shelf, out_len = arguments(rng, 2)
        held, left, mask = trials.calls.held(shelf), shelf, rng.randint(1, 255)
        changed, read = lambda now: [a, b, words, report, now, out_len], lambda now: [a, now, words, report, shelf, out_len]
        for _ in range(2):
            trials.judge("memory that is held and changed is accepted", changed(left), [], lent=changed(held))
            left = model(*changed(left)).lent[1]
        trials.judge("memory that is held and only read is accepted", read(left), [], lent=read(held))
        fault = LENT["shelf"], rng.randrange(len(shelf)), mask, NOWHERE
        trials.judge("a byte in memory that is held is reported", changed(left), [ANSWERS], fault, changed(held))
        left = model(*changed(left)).lent[1]
        trials.judge("a byte left wrong in memory that is held is reported", changed(left), [ANSWERS], lent=changed(held))
        fault = READ_ONLY["b"], rng.randrange(len(shelf)), mask, NOWHERE
        trials.judge("a byte in memory that is held and only read is reported", read(held.data), [KEPT], fault, read(held))


def check_model(trials):
    """A model that lacks the end of what a call leaves is no match, and a function that is not there is no pass."""
    short = lambda *args: records.Answer(model(*args).numbers, tuple(data[:-1] for data in model(*args).lent))
    trials.calls.rows = {"all": ROWS["all"]._replace(model=short)}
    for _ in range(TRIES):
        trials.judge("a model with fewer bytes is reported", arguments(trials.calls.rng, 2), [ANSWERS])
    trials.calls.rows = ROWS
    trials.calls.tally = face.Tally()
    with contextlib.redirect_stdout(io.StringIO()):
        got = trials.calls.call("none")
    bad = [bad for _, bad in trials.calls.tally.by_name.values()]
    trials.tally.same("a function that is not in the library is reported", (got, bad), (MISSING, [1]), "none")


def check_refusals(trials):
    """A number that the header names and no call met is reported, and one that it does not name."""
    for expected, numbers in (({0}, []), ({0, 7}, [7]), ({0, 7}, []), ({0}, [7])):
        trials.calls.tally, trials.calls.refusals = face.Tally(), {("all", number): 3 for number in expected}
        with contextlib.redirect_stdout(io.StringIO()):
            trials.calls.rows = {"all": ROWS["all"]}
            trials.calls.judge_refusals("check_harness.py", {"all": header.Declared([], set(numbers))})
        bad = [bad for _, bad in trials.calls.tally.by_name.values()]
        right = expected == {0, *numbers}
        trials.tally.same("a refusal that is missed is reported", bad, [0 if right else 1], (expected, numbers))


def check_table(tally):
    """The table is the header's, and it is reported where it is not."""
    text = header.text()
    declared = header.declared(text)
    tally.same("every function of the header has its row", functions.faults(declared, FACE), [], "functions.py")
    tally.same("all declarations are read", len(declared), text.count("\nvoid fermion_"), "fermion.h")
    for name in FACE:
        without = {other: row for other, row in FACE.items() if other != name}
        tally.same("a row that is missing is reported", len(functions.faults(declared, without)), 1, name)
        for takes in (FACE[name].takes[1:], (*FACE[name].takes, NUMBER)):
            other = {**FACE, name: FACE[name]._replace(takes=takes)}
            tally.same("a row with other arguments is reported", len(functions.faults(declared, other)), 1, name)
    more = text.replace("\nvoid fermion_check(", "\nvoid fermion_more(uint64_t answer[8]);\nvoid fermion_check(")
    silent = text.replace("Refusals: the record (operand 1).", "")
    for wrong in (more, silent):
        found = functions.faults(header.declared(wrong), FACE)
        tally.same("a function without a row, or without its refusals, is reported", len(found), 1, found)
    for name, row in FACE.items():
        runs = os.access(os.path.join(HERE, row.test), os.X_OK)
        tally.same("the test of every row is one that the gate runs", runs, True, name)


def texts(*path):
    """{name: text} of files in this folder."""
    found = {}
    for name in glob.glob(os.path.join(HERE, *path)):
        with open(name, encoding="utf-8") as file:
            found[os.path.basename(name)] = file.read()
    return found


def check_ways(tally):
    """No test loads the library but by calls.py; and every function is called from C too, on inputs and on its own stack."""
    python = texts("*.py")
    for what, places in (("CDLL(", ["check_harness.py", "face.py"]), ("face.load(", ["calls.py", "check_harness.py"])):
        found = sorted(name for name, text in python.items() if what in text)
        tally.same("from Python there is one way to call", found, places, what)
    for folder in ("c", "c_stack"):
        code = "".join(texts(folder, "*.c").values())
        missing = [name for name in FACE if f"fermion_{name}(" not in code and f"fermion_{name}," not in code]
        tally.same(f"tests/{folder} calls every function", missing, [], folder)


def main():
    tally = face.Tally()
    with tempfile.TemporaryDirectory() as folder:
        trials = Trials(library(folder), tally)
        for check in (check_right, check_faults, check_held, check_model, check_refusals):
            check(trials)
    check_table(tally)
    check_ways(tally)
    tally.close()


main()
