#!/usr/bin/env python3
"""Makes the stored answers by asking the built, unchanged Rust.

    python3 oracle/make_answers.py oracle/build/unchanged/target/release/oracle \\
        oracle/build/corrected/target/release/oracle

writes crates/cases/stdin and tests/answers/: mul_cmpnts.txt, records.txt, products.txt, elements.txt. The
inputs are seeded, so that two runs write the same bytes. Every answer is compared with tests/rule.py or
tests/records.py on the way, and on operators the corrected copy is asked as well: it must agree with them.
No answer of the corrected copy is stored.
"""
import collections
import pathlib
import sys

import operator_answers
from ask import all_pairs, ask, hexes, joined, kinds, products, rule
from draw import Draw

ROOT = pathlib.Path(__file__).resolve().parent.parent
FULL, TOP = 2**64 - 1, 2**63
SEED_APPLY, SEED_COUNT, SEED_MUL = 101, 102, 103
# For each number of modes in crates/cases/stdin: 25 lines of each kind, apply's by outcome.
WANTED_APPLY = {"applied": 15, "missing": 5, "blocked": 5}
WANTED_COUNT = 25
DENSITIES = (1, 3, 5, 8, 11, 13, 15)  # in sixteenths


# crates/cases/stdin: apply_op_ket_u64 and count_before_each_set_bit


def outcome_of(cre, ann, ket):
    if ann & ~ket:
        return "missing"  # Zero: an annihilated mode is not occupied
    return "blocked" if cre & ket & ~ann else "applied"  # Zero: a created mode is still occupied


def apply_inputs():
    """(cre, ann, ket): the ends of the range, single modes, and 25 for each of 1 to 64 modes."""
    chosen = dict.fromkeys([
        (0, 0, 0), (0, 0, 1), (0, 0, TOP), (0, 0, FULL), (4, 1, 3), (0, 4, 3), (1, 0, 1), (1, 1, 1),
        (TOP, 0, FULL >> 1), (0, 3, 3), (3, 0, 0), (FULL, 0, 0), (0, FULL, FULL), (FULL, FULL, FULL),
        (FULL, 0, 1), (FULL, 0, TOP), (0, FULL, FULL >> 1), (0, FULL, 0), (FULL, 0, FULL),
        (TOP, TOP, TOP), (0, TOP, TOP), (TOP, 0, 0), (TOP, 1, 1), (1, TOP, TOP), (1, TOP, FULL - 1),
        (TOP, 0, TOP), (0, TOP, 0), (0, TOP, FULL >> 1), (FULL // 3, 0, FULL // 3 * 2),
        (0, FULL // 3, FULL), (FULL // 3, FULL // 3 * 2, FULL // 3 * 2),
    ])
    for i in range(64):
        chosen[1 << i, 0, (1 << i) - 1] = None
        chosen[0, 1 << i, FULL] = None
    draw = Draw(SEED_APPLY)
    for m in range(1, 65):
        if m == 1:  # only eight inputs
            chosen.update(dict.fromkeys((c, a, k) for c in (0, 1) for a in (0, 1) for k in (0, 1)))
            continue
        wanted = dict(WANTED_APPLY)
        while any(wanted.values()):
            ket = draw.word(m, draw.pick(DENSITIES))
            ann = draw.word(m, draw.pick(DENSITIES)) & (ket if draw.below(4) else FULL)
            cre = draw.word(m, draw.pick(DENSITIES)) & (~(ket & ~ann) if draw.below(4) else FULL)
            outcome = outcome_of(cre, ann, ket)
            new = (cre | ann | ket) >> m - 1 and (cre, ann, ket) not in chosen
            if new and wanted[outcome]:
                wanted[outcome] -= 1
                chosen[cre, ann, ket] = None
    return list(chosen)


def count_inputs():
    """(word, at): the ends of the range, single modes, and 25 for each of 1 to 64 modes."""
    ends = (0, 1, TOP, FULL >> 1, FULL - 1, FULL, FULL // 3, FULL // 3 * 2)
    chosen = dict.fromkeys((word, at) for word in ends for at in ends)
    for i in range(64):
        chosen[FULL, 1 << i] = None
        chosen[1 << i, FULL] = None
    draw = Draw(SEED_COUNT)
    for m in range(1, 65):
        if m <= 2:  # only 4 and 16 inputs
            chosen.update(dict.fromkeys((w, a) for w in range(1 << m) for a in range(1 << m)))
            continue
        wanted = WANTED_COUNT
        while wanted:
            pair = draw.word(m, draw.pick(DENSITIES)), draw.word(m, draw.pick(DENSITIES))
            if (pair[0] | pair[1]) >> m - 1 and pair not in chosen:
                wanted -= 1
                chosen[pair] = None
    return list(chosen)


def case_line(kind, *fields):
    fields += (0,) * (6 - len(fields))
    return kind + "".join(f" {field:016x}" for field in fields) + "\n"


def make_cases(binary):
    lines, tally = [], collections.Counter()
    inputs = apply_inputs()
    for (cre, ann, ket), answer in zip(inputs, ask(binary, [f"apply {hexes(*i)}" for i in inputs])):
        if answer == "zero":
            got, fields = None, (0, 0, 0)
        else:
            word, sign = answer.split()
            got = int(word, 16), int(sign)
            fields = 1, got[0], int(got[1] == -1)
        agrees = got == rule.apply_term(cre, ann, ket)
        tally["apply " + outcome_of(cre, ann, ket)] += 1
        tally["apply agrees" if agrees else "apply DIFFERS"] += 1
        lines.append(case_line("a", cre, ann, ket, *fields))
    inputs = count_inputs()
    for (word, at), answer in zip(inputs, ask(binary, [f"count {hexes(*i)}" for i in inputs])):
        agrees = int(answer) == rule.count_before_each_set_bit(word, at)
        tally["count agrees" if agrees else "count DIFFERS"] += 1
        lines.append(case_line("c", word, at, int(answer)))
    assert all(len(line) == 104 for line in lines) and len(set(lines)) == len(lines)
    return "".join(lines), tally


# tests/answers/mul_cmpnts.txt


def not_empty(left, right):
    """The pair with modes taken from R until the product isn't empty."""
    (l_cre, l_ann), (r_cre, r_ann) = left, right
    r_cre &= ~(l_cre & r_cre & ~l_ann)
    r_ann &= ~(l_ann & r_ann & ~r_cre)
    return left, (r_cre, r_ann)


def near(draw, m, n):
    """n of m modes, drawn: pairs made from few modes have many modes in common."""
    return rule.bits(draw.among(range(m), min(n, m)))


def body(draw, modes, k):
    return draw.among(modes, k), draw.among(modes, k)


# modes, branching modes, common modes that do not branch
MANY_BRANCHES = [(9, 9, 0), (12, 9, 2), (16, 9, 3), (64, 9, 0), (14, 10, 1), (20, 10, 0), (64, 10, 2),
                 (13, 11, 1), (18, 11, 0), (12, 12, 0), (18, 12, 0)]


def product_inputs():
    """(heading, pairs) for each part of the file."""
    draw = Draw(SEED_MUL)
    yield "every pair on 1 mode", all_pairs(1)
    yield "every pair on 2 modes", all_pairs(2)
    yield "2,000 of the 4,096 pairs on 3 modes", sorted(draw.shuffled(all_pairs(3))[:2000])

    pairs = []
    for m in (4, 8, 16, 32, 64):
        for i in range(40):
            modes = near(draw, m, 4 if i % 2 else m)
            pairs.append((m, body(draw, modes, 1), body(draw, modes, 1)))
    yield "one-body pairs", pairs

    pairs = []
    for m in (8, 16, 32, 64):
        for i in range(160):
            modes = near(draw, m, 6 if i % 2 else m)
            pair = body(draw, modes, 2), body(draw, modes, 2)
            while i % 4 >= 2 and rule.is_empty(*pair):
                pair = body(draw, modes, 2), body(draw, modes, 2)
            pairs.append((m, *pair))
    yield "two-body pairs", pairs

    pairs = []
    for m in range(4, 65):
        for i in range(6):
            modes = near(draw, m, 8)
            while True:
                words = [draw.among(modes, draw.below(min(5, len(modes)))) for _ in range(4)]
                left, right = (words[0], words[1]), (words[2], words[3])
                if i % 3:
                    left, right = not_empty(left, right)
                if any(rule.size(cre) != rule.size(ann) for cre, ann in (left, right)):
                    break
            pairs.append((m, left, right))
    yield "pairs of which one term or both do not conserve particles", pairs

    pairs = []
    for m in range(4, 65):
        for i in range(6):
            while True:
                words = [draw.word(m, draw.pick((2, 4, 6, 8))) for _ in range(4)]
                left, right = (words[0], words[1]), (words[2], words[3])
                if i % 3:
                    left, right = not_empty(left, right)
                if rule.size(rule.common(left, right)) <= 8:
                    break
            pairs.append((m, left, right))
    yield "dense pairs, at most 8 common modes", pairs

    pairs = []
    for m, b, still in MANY_BRANCHES:
        both = draw.among(range(m), b + still)
        stay = draw.among(rule.bits(both), still)
        rest = [p for p in range(m) if not both >> p & 1]
        words = [draw.among(rest, min(3, len(rest))) for _ in range(4)]
        left, right = (words[0] | stay, words[1] | both), (words[2] | both, words[3])
        right = right[0] & ~(words[1] & words[2]), right[1]  # no further common modes
        left, right = not_empty(left, right)
        assert rule.size(rule.branching(left, right)) == b
        pairs.append((m, left, right))
    yield "pairs with 9 to 12 branching modes", pairs


HEADER = """\
# Products of two terms, as the unchanged Rust gives them.
# Made by oracle/make_answers.py with zixy commit 989b739716, function mul_cmpnts; seed {seed}.
# A line: m lcre lann rcre rann | agree or differs:KIND | the Rust's answer.
# The words are hexadecimal and m is decimal. The answer is the Rust's rows as coefficients by term,
# zeros dropped: ann:cre:coefficient, ascending by (ann, cre), the coefficient decimal.
# agree: the answer equals the rule's (tests/rule.py), also as coefficients by term, zeros dropped.
# KIND, joined by commas: panic (the Rust panics), sign (a term has the opposite coefficient),
# spare (the identity term 0:0 is there, and the product has no such term).
"""


def make_products(binary):
    out, tally = [HEADER.format(seed=SEED_MUL)], collections.Counter()
    for heading, pairs in product_inputs():
        out.append(f"# {heading}: {len(pairs)}\n")
        for (m, left, right), rows in zip(pairs, products(binary, pairs)):
            assert max(*left, *right) >> m == 0
            assert rule.size(rule.common(left, right)) <= 12
            sums = None if rows is None else joined(rows)
            found = kinds(sums, left, right)
            assert set(found) <= {"panic", "sign", "spare"}, (m, left, right, found)
            verdict = "differs:" + ",".join(found) if found else "agree"
            items = "".join(f" {a:x}:{c:x}:{v}" for (a, c), v in sorted((sums or {}).items()))
            out.append(f"{m} {hexes(*left, *right)} | {verdict} |{items}\n")
            tally[heading, verdict] += 1
            tally["all together", verdict] += 1
            tally["all together", "empty" if rule.is_empty(left, right) else "not empty"] += 1
    return "".join(out), tally


def write(name, text):
    path = ROOT / name
    path.parent.mkdir(parents=True, exist_ok=True)
    path.write_text(text)
    print(f"wrote {name}: {len(text)} bytes")


def main():
    if len(sys.argv) != 3:
        sys.exit(__doc__)
    unchanged, corrected = sys.argv[1:]
    text, cases = make_cases(unchanged)
    write("crates/cases/stdin", text)
    for what, n in sorted(cases.items()):
        print(f"  {what}: {n}")
    text, tally = make_products(unchanged)
    write("tests/answers/mul_cmpnts.txt", text)
    for heading in [*dict.fromkeys(h for h, _ in tally if h != "all together"), "all together"]:
        counts = sorted((what, n) for (other, what), n in tally.items() if other == heading)
        print(f"  {heading}: " + ", ".join(f"{what} {n}" for what, n in counts))
    for name, text, tally in operator_answers.make(unchanged, corrected):
        write(name, text)
        for (function, mark), n in sorted(tally.items()):
            print(f"  {function}: {mark}: {n}")
    if cases["apply DIFFERS"] or cases["count DIFFERS"]:
        sys.exit("make_answers.py: answers in crates/cases/stdin differ from the rule")


main()
