"""The stored answers on operators: draws the inputs, asks the Rust, and writes the text of three files.

make_answers.py calls this. An answer that differs from tests/records.py is marked with the kinds of
difference, and the corrected copy is asked the same: it must agree.
"""
import collections

from ask import ask, hexes, rule
from draw import Draw
from operators import expected, float_answer, float_line, kinds, matrix, mirrored, projected, questions, read, records

SEED_RECORDS, SEED_PRODUCTS, SEED_ELEMENTS = 104, 105, 106
ONE_OPERATOR = "adjoint", "hermitian", "conserves", "max_n_body", "active"
PRODUCTS = "mul", "commutator", "anticommutator"
DENSITIES = (1, 2, 4, 8, 12)  # in sixteenths
COMMON, ROWS = 12, 48  # at most: common modes of a pair of terms, rows of a pair of operators in both orders


# Draws


def coefficient(draw, most):
    """Not zero, of up to so many bits, small ones as likely as large ones."""
    c = 1 + draw.below(1 << draw.below(most + 1))
    return -c if draw.below(2) else c


def operator(draw, n, most, term):
    """Up to n different terms, ascending."""
    rows = {term(): coefficient(draw, most) for _ in range(n)}
    return sorted((ann, cre, c) for (ann, cre), c in rows.items())


def dense(draw, m):
    return lambda: (draw.word(m, draw.pick(DENSITIES)), draw.word(m, draw.pick(DENSITIES)))


def body(draw, modes, most):
    """Terms with as many creations as annihilations, on the modes listed."""
    def term():
        k = min(1 + draw.below(most), len(modes))
        return draw.among(modes, k), draw.among(modes, k)
    return term


def sparse(draw, modes, most):
    """Terms with up to so many creations and annihilations, on the modes listed."""
    most = min(most, len(modes))
    return lambda: (draw.among(modes, draw.below(most + 1)), draw.among(modes, draw.below(most + 1)))


def some_modes(draw, m, n):
    return rule.bits(draw.among(range(m), min(n, m)))


def with_swapped(rows, sign):
    """Every term and its swapped term, which has sign(term) times its coefficient."""
    terms = {}
    for ann, cre, c in rows:
        if (ann, cre) not in terms:
            terms[cre, ann] = sign(ann, cre) * c
            terms[ann, cre] = c
    return sorted((*term, c) for term, c in terms.items())


def swap_sign(ann, cre):
    return (-1) ** (records.pairs(ann) + records.pairs(cre))


def one_operator_inputs():
    """(m, rows): 16 for each number of modes."""
    draw = Draw(SEED_RECORDS)
    for m in range(1, 65):
        n = lambda: 1 + draw.below(5)
        few = lambda: sparse(draw, some_modes(draw, m, 5), 3)
        for _ in range(3):
            yield m, operator(draw, n(), 40, dense(draw, m))
        for _ in range(4):
            yield m, operator(draw, n(), 40, body(draw, some_modes(draw, m, 6), 3))
        for _ in range(3):  # Hermitian
            yield m, with_swapped(operator(draw, 1 + draw.below(3), 10, few()), swap_sign)
        for sign in (1, 1, -1):  # the same without the sign of turning the words round, and the opposite
            yield m, with_swapped(operator(draw, 1 + draw.below(3), 10, few()), lambda ann, cre: sign)
        word, c = draw.among(some_modes(draw, m, 4), min(m, 2)), coefficient(draw, 10)
        if m % 2 == 0:
            word = 3 << m - 2
        yield m, [(0, word, c), (word, 0, c)]  # particles created and annihilated alike
        yield m, operator(draw, 3, 40, few())
        yield m, [] if m % 4 == 0 else [(0, 0, coefficient(draw, 40))] if m % 4 == 1 else operator(draw, 8, 40, few())


def two_operator_inputs():
    """(m, rows, rows): 16 for each number of modes; terms of the first are in the second too, or cancel."""
    draw = Draw(SEED_RECORDS + 1000)
    for m in range(1, 65):
        for i in range(16):
            term = dense(draw, m) if i % 2 else body(draw, some_modes(draw, m, 6), 2)
            left = operator(draw, draw.below(7), 50, term)
            right = {row[:2]: row[2] for row in operator(draw, draw.below(5), 50, term)}
            for ann, cre, c in left:
                if draw.below(2):
                    right[ann, cre] = draw.pick((c, -c, coefficient(draw, 50)))
            yield m, left, sorted((*term, c) for term, c in right.items())


def common_modes(left, right):
    return max((rule.size(la & rc) for la, _, _ in left for _, rc, _ in right), default=0)


def is_small(left, right, rows):
    both = (left, right), (right, left)
    return max(common_modes(*pair) for pair in both) <= COMMON and sum(records.branch_count(*pair) for pair in both) <= rows


def product_inputs():
    """(m, rows, rows): 16 for each number of modes, and pairs of terms with 9 to 12 common modes."""
    draw = Draw(SEED_PRODUCTS)
    for m in range(1, 65):
        for i in range(16):
            while True:
                modes = some_modes(draw, m, (5, m, 6, 8)[i % 4])
                most = (6, 4, 4, 2)[i % 4]
                term = body(draw, modes, 2) if i % 4 < 2 else sparse(draw, modes, 3) if i % 4 == 2 else dense(draw, m)
                left, right = (operator(draw, 1 + draw.below(most), 16, term) for _ in range(2))
                if i == 14:
                    right = left
                if is_small(left, right, ROWS):
                    break
            yield m, left, right
    for m in (9, 12, 14, 16, 20, 24, 32, 48, 63, 64):
        for b in (0, 3, 6):
            yield many_common(draw, m, b)


def many_common(draw, m, b):
    """A pair of terms with 9 to 12 common modes, b of them branching, and a further term in each operator."""
    modes = draw.shuffled(range(m))
    both = modes[:min(m, 9 + draw.below(4))]
    branching, still = both[:b], both[b:]
    left, right = [0, 0], [0, 0]  # ann, cre
    for p in both:
        left[0] |= 1 << p
        right[1] |= 1 << p
    for p in still:
        where = draw.below(3)
        left[1] |= (where != 1) << p
        right[0] |= (where != 0) << p
    for p in modes[len(both):len(both) + 4]:
        draw.pick((left, right))[draw.below(2)] |= 1 << p
    assert not rule.is_empty(left[::-1], right[::-1]) and len(branching) == b
    return m, [(*left, coefficient(draw, 8))], [(*right, coefficient(draw, 8))]


# Float elements and matrices

# Zeros, the least and the largest subnormals, the least normal number, and numbers that round when added
SPECIAL = (0.0, -0.0, 5e-324, -5e-324, 2.225073858507201e-308, -2.225073858507201e-308, 2.2250738585072014e-308, 1.0,
           -1.0, 0.1, 1 / 3, 1e16, -1e16, 1e-300, 1e300, -1e300, 2.0**-53, -(2.0**-53))


def float_coefficient(draw):
    """The bits of a finite binary64: a special one, a whole number, or any bits with an exponent near 1."""
    kind = draw.below(8)
    if kind < 3:
        return records.bits_of(draw.pick(SPECIAL))
    if kind < 4:
        return records.bits_of(float(draw.below(7)) - 3.0)
    return draw.below(2) << 63 | 1023 - 40 + draw.below(80) << 52 | draw.below(1 << 52)


def joining(draw, m, bra, ket):
    """A term that takes ket to bra."""
    still = ket & bra & draw.word(m, draw.pick((0, 4, 8)))
    return ket & ~bra | still, bra & ~ket | still


def element_inputs(parts):
    """(m, rows, bra, ket): 16 for each number of modes; most terms join, many are repeated."""
    draw = Draw(SEED_ELEMENTS + 1000 * parts)
    for m in range(1, 65):
        for n in (0, 1, 1, 1, 2, 2, 3, 3, 4, 4, 5, 6, 8, 8, 12, 16):
            ket = draw.word(m, draw.pick((2, 5, 8, 12)))
            bra = ket if draw.below(2) else draw.word(m, draw.pick((2, 5, 8)))
            rows = []
            for _ in range(n):
                kind = draw.below(8)
                term = joining(draw, m, bra, ket) if kind < 5 else dense(draw, m)()
                if rows and kind == 7:
                    term = draw.pick(rows)[:2]
                rows.append((*term, *(float_coefficient(draw) for _ in range(parts))))
            yield m, rows, bra, ket


def matrix_inputs():
    """(m, rows, basis): 16 for each number of modes from 1, a basis of up to 8 words that the terms join."""
    draw = Draw(SEED_ELEMENTS)
    for m in range(1, 65):
        for i in range(16):
            modes = some_modes(draw, m, 4)
            term = sparse(draw, modes, 3) if i % 2 else body(draw, modes, 2)
            rows = operator(draw, 1 + draw.below(4), 20, term)
            if i % 4:
                rows = with_swapped(rows, (swap_sign, swap_sign, lambda ann, cre: 1, lambda ann, cre: -1)[i // 4])
            rest = draw.word(m, 8) & ~sum(1 << p for p in modes)
            words = [rest | sum(1 << p for j, p in enumerate(modes) if code >> j & 1) for code in range(1 << len(modes))]
            yield m, rows, draw.shuffled(words)[:draw.below(9)]


# Text


def in_text(rows):
    return "".join(f" {ann:x}:{cre:x}" + "".join(f":{c}" for c in parts) for ann, cre, *parts in rows)


def mark(found):
    return "differs:" + ",".join(found) + " corrected:agree" if found else "agree"


def operator_lines(function, inputs, unchanged, corrected, tally):
    """The lines of one function. The corrected copy must give the specification's answer to every question."""
    inputs = list(inputs)
    fixed = questions(corrected, function, inputs)
    for (m, *operators), answer, other in zip(inputs, questions(unchanged, function, inputs), fixed):
        right, got = expected(function, m, *operators), read(function, answer)
        assert read(function, other) == right, (function, m, operators)
        found = kinds(function, got, right)
        tally[function, mark(found)] += 1
        told = in_text(got) if isinstance(got, list) else " " + answer
        yield f"{function} {m} |" + " |".join(map(in_text, operators)) + f" | {mark(found)} |{told}\n"


def element_lines(parts, unchanged, corrected, tally):
    name = ("elem_real", "elem_complex")[parts - 1]
    inputs = [i for i in element_inputs(parts) if float_answer(parts, *i) is not None]
    lines = [float_line(parts, *i) for i in inputs]
    for (m, rows, bra, ket), answer, other in zip(inputs, ask(unchanged, lines), ask(corrected, lines)):
        right = float_answer(parts, m, rows, bra, ket)
        got = [records.bits_of(float(field)) for field in answer.split()]
        assert answer == other and got == right, (name, m, rows, bra, ket)
        tally[name, "agree"] += 1
        rows = [(ann, cre, *(f"{bits:016x}" for bits in c)) for ann, cre, *c in rows]
        yield f"{name} {m} {hexes(bra, ket)} |{in_text(rows)} | agree | " + " ".join(f"{bits:016x}" for bits in got) + "\n"


def matrix_lines(unchanged, corrected, tally):
    inputs = list(matrix_inputs())
    for (m, rows, basis), got, other in zip(inputs, projected(unchanged, inputs), projected(corrected, inputs)):
        right = matrix(m, rows, basis)
        assert other == right and got in (right, mirrored(right)), (m, rows, basis)
        found = [] if got == right else ["mirrored"]
        tally["proj", mark(found)] += 1
        entries = "".join(f" {entry}" for entry in got)
        yield f"proj {m} |{in_text(rows)} |{''.join(f' {word:x}' for word in basis)} | {mark(found)} |{entries}\n"


RECORDS_HEADER = """\
# Sums, differences, adjoints and tests of operators, as the unchanged Rust gives them.
# Made by oracle/make_answers.py with zixy commit 989b739716, functions of lincomb.rs; seeds {seed} and {other}.
# A line: FUNCTION m | operator | agree or differs:KIND | the Rust's answer; add and sub have two operators.
# An operator is its terms ann:cre:coefficient, ascending by (ann, cre), words hexadecimal, m and coefficients
# decimal. No operator has a term twice or a zero. The Rust's operators stand likewise, zeros dropped; hermitian
# and conserves are true or false, max_n_body is decimal, active is the union of the words, hexadecimal.
# agree: the answer equals that of tests/records.py.
# KIND: sign (a term has the opposite coefficient), yes (the Rust says true, the answer is false), no (the other
# way round), lower (the Rust's number is smaller than the answer). corrected:agree: the corrected copy of the Rust
# gives the answer of tests/records.py, as it does on all lines.
"""

PRODUCTS_HEADER = """\
# Products, commutators and anticommutators of two operators, as the unchanged Rust gives them.
# Made by oracle/make_answers.py with zixy commit 989b739716, functions of lincomb.rs; seed {seed}.
# A line: FUNCTION m | operator | operator | agree or differs:KIND | the Rust's answer.
# An operator is its terms ann:cre:coefficient, ascending by (ann, cre), words hexadecimal, m and coefficients
# decimal. No operator has a term twice or a zero, and no pair of terms has more than 12 common modes. The Rust's
# answer stands likewise, zeros dropped.
# agree: the answer equals that of tests/records.py.
# KIND, joined by commas: identity (the coefficient of 0:0 is another one), sign (a term has the opposite
# coefficient), terms (a term has another coefficient otherwise, is missing, or should not be there).
# corrected:agree: the corrected copy of the Rust gives the answer of tests/records.py, as it does on all lines.
"""

ELEMENTS_HEADER = """\
# Elements of operators with binary64 coefficients, and projected matrices, as the unchanged Rust gives them.
# Made by oracle/make_answers.py with zixy commit 989b739716, functions of mat_elem.rs; seeds {real}, {complex} and {matrix}.
# elem_real m bra ket | terms ann:cre:bits, in the caller's order | agree | bits of the element
# elem_complex m bra ket | terms ann:cre:bits of re:bits of im | agree | bits of re, bits of im
# proj m | terms ann:cre:coefficient, ascending | basis words | agree or differs:KIND | entries by rows, row the bra
# Words and bits are hexadecimal (bits: the 16 digits of a binary64), m, coefficients and entries decimal.
# agree: the answer equals that of tests/records.py, elements by bits.
# KIND: mirrored (the upper half is the lower half once more). corrected:agree: the corrected copy of the Rust
# gives the answer of tests/records.py, as it does on all lines.
"""


def make_records(unchanged, corrected, tally):
    yield RECORDS_HEADER.format(seed=SEED_RECORDS, other=SEED_RECORDS + 1000)
    for function in ("add", "sub"):
        yield from operator_lines(function, two_operator_inputs(), unchanged, corrected, tally)
    for function in ONE_OPERATOR:
        yield from operator_lines(function, one_operator_inputs(), unchanged, corrected, tally)


def make_products(unchanged, corrected, tally):
    yield PRODUCTS_HEADER.format(seed=SEED_PRODUCTS)
    for function in PRODUCTS:
        yield from operator_lines(function, product_inputs(), unchanged, corrected, tally)


def make_elements(unchanged, corrected, tally):
    yield ELEMENTS_HEADER.format(real=SEED_ELEMENTS + 1000, complex=SEED_ELEMENTS + 2000, matrix=SEED_ELEMENTS)
    for parts in (1, 2):
        yield from element_lines(parts, unchanged, corrected, tally)
    yield from matrix_lines(unchanged, corrected, tally)


FILES = {
    "tests/answers/records.txt": make_records,
    "tests/answers/products.txt": make_products,
    "tests/answers/elements.txt": make_elements,
}


def make(unchanged, corrected):
    """(file name, text, tally) of each file."""
    for name, maker in FILES.items():
        tally = collections.Counter()
        yield name, "".join(maker(unchanged, corrected, tally)), tally
