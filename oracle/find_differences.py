#!/usr/bin/env python3
"""Where the unchanged Rust and the specification part: the figures in docs/DIFFERENCES.md.

    python3 oracle/find_differences.py UNCHANGED [--debug DEBUG] [--corrected CORRECTED]

UNCHANGED, DEBUG and CORRECTED are programs `oracle` made by build.sh. Nothing is written.
"""
import argparse
import collections
import pathlib
import subprocess
import time

import operator_differences
from ask import all_pairs, ask, hexes, joined, kinds, products, rule, triples
from draw import Draw

ROOT = pathlib.Path(__file__).resolve().parent.parent
FULL = 2**64 - 1
SEED_APPLY, SEED_TWO_BODY = 201, 202
LONGEST_RUN = 10  # seconds


def braces(term):
    cre, ann = (",".join(map(str, rule.bits(word))) for word in term)
    return "{" + cre + "|" + ann + "}"


def show_rows(rows):
    return ", ".join(f"{braces((cre, ann))} {c:+d}" for ann, cre, c in rows) or "no rows"


def two_body_pairs(draw, m, n):
    """n products of two-body terms that aren't empty."""
    pairs = []
    while len(pairs) < n:
        words = [draw.among(range(m), 2) for _ in range(4)]
        if not rule.is_empty(words[:2], words[2:]):
            pairs.append((m, tuple(words[:2]), tuple(words[2:])))
    return pairs


def stored_pairs():
    pairs = []
    for line in (ROOT / "tests/answers/mul_cmpnts.txt").read_text().splitlines():
        if not line.startswith("#"):
            m, *words = line.split(" | ")[0].split()
            l_cre, l_ann, r_cre, r_ann = (int(word, 16) for word in words)
            pairs.append((int(m), (l_cre, l_ann), (r_cre, r_ann)))
    return pairs


def verdict_of(rows, left, right):
    return ",".join(kinds(None if rows is None else joined(rows), left, right)) or "agree"


def is_in_order(rows, left, right):
    """Whether the rows, without spare ones, have the specification's words in its order."""
    terms = [(cre, ann) for ann, cre, _ in rows]
    expected = rule.row_words(left, right)
    if (0, 0) not in expected:
        terms = [term for term in terms if term != (0, 0)]
    return terms == expected


def show_applications(binary):
    inputs = [(c, a, k) for c in range(16) for a in range(16) for k in range(16)]
    draw = Draw(SEED_APPLY)
    for _ in range(20000):
        m = 1 + draw.below(64)
        ket = draw.word(m, 8)
        ann = draw.word(m, 4) & (ket if draw.below(8) else FULL)
        cre = draw.word(m, 4) & (~(ket & ~ann) if draw.below(8) else FULL)
        inputs.append((cre, ann, ket))
    answers = ask(binary, [f"apply {hexes(*i)}" for i in inputs])
    expected = [rule.apply_term(*i) for i in inputs]
    shown = ["zero" if e is None else f"{e[0]:x} {e[1]:+d}" for e in expected]
    wrong = sum(a != s for a, s in zip(answers, shown))
    print(f"apply_op_ket_u64: {len(inputs)} inputs, {expected.count(None)} of them Zero: {wrong} differ")
    pairs = [(w, at) for w in range(64) for at in range(64)]
    pairs += [(draw.next(), draw.next()) for _ in range(20000)]
    answers = ask(binary, [f"count {hexes(*i)}" for i in pairs])
    wrong = sum(int(a) != rule.count_before_each_set_bit(*i) for a, i in zip(answers, pairs))
    print(f"count_before_each_set_bit: {len(pairs)} inputs: {wrong} differ")


def show_cases(binary):
    """The specification's cases 1 to 8."""
    cases = [((1, 0), (1, 0)), ((1, 1), (1, 1)), ((0, 1), (1, 0)), ((0, 1), (2, 0)),
             ((0, 1), (2, 4)), ((1, 4), (2, 0)), ((2, 0), (1, 0)), ((0, 3), (3, 0))]
    for i, ((left, right), rows) in enumerate(zip(cases, products(binary, [(3, *c) for c in cases]))):
        print(f"case {i + 1}: {braces(left)} times {braces(right)}: {show_rows(rows)}: "
              + verdict_of(rows, left, right))


def show_every_small_pair(binary):
    smallest = {}
    for m in (1, 2, 3):
        pairs = all_pairs(m)
        tally = collections.Counter()
        for (_, left, right), rows in zip(pairs, products(binary, pairs)):
            verdict = verdict_of(rows, left, right)
            tally[verdict] += 1
            tally["not empty"] += not rule.is_empty(left, right)
            tally["words or order differ"] += not is_in_order(rows, left, right)
            if verdict == "agree":
                continue
            ladders = sum(map(rule.size, left + right))
            for kind in verdict.split(",") + [verdict]:
                key = (m, ladders, left + right)
                if kind not in smallest or key < smallest[kind][0]:
                    smallest[kind] = key, left, right, rows
        print(f"every pair, m = {m}: {len(pairs)}:", dict(sorted(tally.items())))
    for kind, ((m, ladders, _), left, right, rows) in sorted(smallest.items()):
        print(f"smallest input with {kind}: m = {m}, {ladders} ladder operators, "
              f"{braces(left)} times {braces(right)}")
        print("  the Rust:", show_rows(rows))
        print("  the rule:", show_rows(rule.mul_cmpnts(left, right)))


def show_stored(binary):
    """The number of rows and of spare rows, and the order, on the stored pairs."""
    tally = collections.Counter()
    pairs = [pair for pair in stored_pairs() if not rule.is_empty(*pair[1:])]
    for (_, left, right), rows in zip(pairs, products(binary, pairs)):
        n, b = rule.size(rule.common(left, right)), rule.size(rule.branching(left, right))
        spare = rows.count((0, 0, 1)) if (0, 0) not in rule.row_words(left, right) else 0
        tally["2^n rows, 2^n - 2^b spare"] += len(rows) == 2**n and spare == 2**n - 2**b
        tally["words and order as specified"] += is_in_order(rows, left, right)
    print(f"stored pairs, not empty: {len(pairs)}:", dict(tally))


def show_two_body(binary):
    draw = Draw(SEED_TWO_BODY)
    for m in (8, 16, 32, 64):
        pairs = two_body_pairs(draw, m, 5000)
        tally = collections.Counter()
        for (_, left, right), rows in zip(pairs, products(binary, pairs)):
            verdict = verdict_of(rows, left, right)
            tally[verdict] += 1
            if not rule.common(left, right):
                tally["no common mode: " + verdict] += 1
        print(f"two-body pairs on {m} modes, not empty: {len(pairs)}:", dict(sorted(tally.items())))


def show_many_common(binary):
    """The list that the Rust makes has 2^n rows for n common modes. 25 to 63 are not run: a row takes 16
    bytes, so that 25 common modes take half a gigabyte, and each mode more twice as much."""
    for n in range(25):
        word = (1 << n) - 1
        started = time.monotonic()
        answer = ask(binary, [f"mul_joined {n or 1} {hexes(word, word, word, 0)}"])[0]
        seconds = time.monotonic() - started
        ((cre, ann), sign), = rule.multiply((word, word), (word, 0)).items()
        spare = f"0 0 {2**n - 1} " if n else ""
        expected = f"{2**n} {2 if n else 1} {spare}{ann:x} {cre:x} {sign}"
        if answer != expected or n % 8 == 0:
            print(f"{n} common modes, none branching: {answer} ({seconds:.1f} s)")
        assert answer == expected


def show_all_common(name, binary):
    """64 common modes on 64 modes, where `1 << n_bif` is `1 << 64`."""
    for branching in (0, 1, 2, 12, 64):
        left, right = (FULL & ~((1 << branching) - 1), FULL), (FULL, 0)
        line = f"mul_cmpnts 64 {hexes(*left, *right)}"
        print(f"{name}: 64 common modes, the lowest {branching} branching: ", end="")
        try:
            run = subprocess.run([binary], input=line, capture_output=True, text=True,
                                 timeout=LONGEST_RUN)
        except subprocess.TimeoutExpired:
            print(f"no answer in {LONGEST_RUN} s")
            continue
        print(run.stdout.strip(), end="")
        if branching <= 12 and not run.stdout.startswith("panic"):
            rows = triples(run.stdout.split()[1:])
            expected = rule.mul_cmpnts(left, right)
            print("; the rule has", len(expected), "rows", end="")
            if len(expected) <= 2:
                print(":", "; ".join(f"{a:x} {c:x} {v:+d}" for a, c, v in expected), end="")
            print("; " + verdict_of(rows, left, right), end="")
        print()


def show_debug(unchanged, debug):
    pairs = [pair for m in (1, 2, 3) for pair in all_pairs(m)]
    same = products(unchanged, pairs) == products(debug, pairs)
    print(f"debug: every pair on 1 to 3 modes: the same rows as release: {same}")
    show_all_common("debug", debug)


def show_corrected(binary):
    """The corrected copy's rows, with their order, against the specification's."""
    draw = Draw(SEED_TWO_BODY)
    pairs = [pair for m in (1, 2, 3) for pair in all_pairs(m)]
    for m in (8, 16, 32, 64):
        pairs += two_body_pairs(draw, m, 5000)
    for m in range(4, 65):
        for _ in range(50):
            l_cre, l_ann, r_cre, r_ann = (draw.word(m, density) for density in (2, 3, 3, 2))
            pairs.append((m, (l_cre, l_ann), (r_cre, r_ann)))
    pairs = [pair for pair in pairs if rule.size(rule.common(*pair[1:])) <= 10] + stored_pairs()
    wrong = sum(rows != rule.mul_cmpnts(left, right)
                for (_, left, right), rows in zip(pairs, products(binary, pairs)))
    print(f"corrected copy: {len(pairs)} products, rows and order: {wrong} differ")
    terms = [(cre, ann) for cre in range(8) for ann in range(8)]
    answers = ask(binary, [f"adjoint f 3 1 {hexes(ann, cre)} 1" for cre, ann in terms])
    sign = lambda word: (-1) ** (rule.size(word) * (rule.size(word) - 1) // 2)
    wrong = sum(a != f"1 {cre:x} {ann:x} {sign(cre) * sign(ann)}.0" for (cre, ann), a in zip(terms, answers))
    print(f"corrected copy: adjoints of {len(terms)} terms on 3 modes: {wrong} differ")


def main():
    parser = argparse.ArgumentParser()
    parser.add_argument("unchanged")
    parser.add_argument("--debug")
    parser.add_argument("--corrected")
    options = parser.parse_args()
    show_applications(options.unchanged)
    show_cases(options.unchanged)
    show_every_small_pair(options.unchanged)
    show_stored(options.unchanged)
    show_two_body(options.unchanged)
    show_many_common(options.unchanged)
    show_all_common("release", options.unchanged)
    operator_differences.show(options.unchanged, options.corrected)
    if options.debug:
        show_debug(options.unchanged, options.debug)
    if options.corrected:
        show_corrected(options.corrected)


main()
