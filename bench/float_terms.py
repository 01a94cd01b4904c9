#!/usr/bin/env python3
"""What an element of FloatTerms costs in Python beside the library's own call, timed by itself in C, by turns.

    python3 bench/float_terms.py

It needs a C compiler (cc) and the library: the file that FERMION_LIB names, else target/native/libfermion.so, which
tools/shared_object.sh makes. A term in four of those drawn takes the ket to the bra. It ends with 1 if an element of 256 or
2,048 terms costs more than three times the call.
"""
import ctypes
import os
import random
import shutil
import subprocess
import sys
import tempfile
import time
from pathlib import Path

ROOT = Path(__file__).resolve().parents[1]
sys.path.insert(0, str(ROOT / "bindings" / "python"))
import fermion  # noqa: E402

LENGTHS = (16, 64, 256, 2048)
LONG = 256  # from here on the limit holds on any machine; ctypes has its price a call, whatever the list
MODES, BRA, KET = 16, 0b1111, 0b1111
TURNS, SECONDS = 9, 0.02
MOST = 3

TIMER = r"""
#include <stddef.h>
#include <stdint.h>
#include <time.h>
typedef void real_call(uint64_t, const uint64_t *, size_t, const uint64_t *, size_t, const double *, size_t,
                       uint64_t, uint64_t, double *, uint64_t *);
typedef void complex_call(uint64_t, const uint64_t *, size_t, const uint64_t *, size_t, const double *, size_t,
                          const double *, size_t, uint64_t, uint64_t, double *, uint64_t *);
static double now(void) { struct timespec t; clock_gettime(CLOCK_MONOTONIC, &t); return t.tv_sec + 1e-9 * t.tv_nsec; }

/* Seconds for `times` calls; the complex one where there are imaginary parts. */
double time_calls(void *call, uint64_t m, const uint64_t *cre, const uint64_t *ann, const double *re, const double *im,
                  size_t n, uint64_t bra, uint64_t ket, uint64_t times) {
    double value[2], start = now();
    uint64_t answer[8];
    for (uint64_t i = 0; i < times; i++) {
        if (im) ((complex_call *)call)(m, cre, n, ann, n, re, n, im, n, bra, ket, value, answer);
        else ((real_call *)call)(m, cre, n, ann, n, re, n, bra, ket, value, answer);
    }
    return now() - start;
}
"""


def timer(folder):
    """The C function above, compiled."""
    compiler = shutil.which("cc") or shutil.which("gcc")
    if compiler is None:
        sys.exit("there is no C compiler (cc or gcc), with which the library's own call is timed")
    source, made = Path(folder, "timer.c"), Path(folder, "timer.so")
    source.write_text(TIMER)
    subprocess.run([compiler, "-O2", "-shared", "-fPIC", "-o", str(made), str(source)], check=True)
    function = ctypes.CDLL(str(made)).time_calls
    u64, pointer = ctypes.c_uint64, ctypes.c_void_p
    function.argtypes = [pointer, u64, pointer, pointer, pointer, pointer, ctypes.c_size_t, u64, u64, u64]
    function.restype = ctypes.c_double
    return function


def drawn(rng, length, with_complex):
    """Terms of two creations and two annihilations; one in four has the same two, so that it joins."""
    terms = []
    for _ in range(length):
        ann = fermion.word(*rng.sample(range(4), 2))
        cre = ann if rng.random() < 0.25 else fermion.word(*rng.sample(range(4, MODES), 2))
        number = rng.uniform(-1, 1)
        terms.append((cre, ann, complex(number, rng.uniform(-1, 1)) if with_complex else number))
    return terms


def in_c(time_calls, library, terms, with_complex):
    """A function that tells the seconds of so many calls."""
    n = len(terms)
    cre, ann = ((ctypes.c_uint64 * n)(*column) for column in list(zip(*terms))[:2])
    re, im = ((ctypes.c_double * n)(*(getattr(complex(term[2]), part) for term in terms)) for part in ("real", "imag"))
    call = getattr(library, "fermion_mat_elem_complex" if with_complex else "fermion_mat_elem_real")
    address = ctypes.cast(call, ctypes.c_void_p)
    return lambda times: time_calls(address, MODES, cre, ann, re, im if with_complex else None, n, BRA, KET, times)


def in_python(terms):
    element = fermion.FloatTerms(MODES, terms).element

    def run(times):
        start = time.perf_counter()
        for _ in range(times):
            element(BRA, KET)
        return time.perf_counter() - start
    return run


def nanoseconds(*runs):
    """Of one call, for each of the runs: by turns, of which the quickest of each counts."""
    times = [max(1, int(SECONDS / (run(100) / 100))) for run in runs]
    turns = [[run(count) / count for run, count in zip(runs, times)] for _ in range(TURNS)]
    return [1e9 * min(turn) for turn in zip(*turns)]


def measured(lengths):
    """For each length, real and complex: nanoseconds of the call in C, and of FloatTerms.element."""
    file = os.environ.get("FERMION_LIB") or ROOT / "target" / "native" / "libfermion.so"
    fermion.load(file)
    library, rng = ctypes.CDLL(str(Path(file).resolve())), random.Random(12)
    with tempfile.TemporaryDirectory() as folder:
        time_calls = timer(folder)
        for with_complex in (False, True):
            for length in lengths:
                terms = drawn(rng, length, with_complex)
                yield (with_complex, length, *nanoseconds(in_c(time_calls, library, terms, with_complex), in_python(terms)))


def main():
    far = False
    for with_complex, length, call, element in measured(LENGTHS):
        print(f"{'complex' if with_complex else 'real':7} {length:5} terms: the call {call:8.0f} ns, "
              f"FloatTerms.element {element:8.0f} ns, {element - call:5.0f} ns more, {element / call:.2f} times")
        far |= length >= LONG and element > MOST * call
    print(f"at most {MOST} times from {LONG} terms on: {'NO' if far else 'yes'}")
    return 1 if far else 0


if __name__ == "__main__":
    sys.exit(main())
