#!/usr/bin/env python3
"""The specification's rules, worked out one ladder operator at a time.

Nothing here comes from zixy or from the library: both are compared with it. A word is an int, bit i
standing for mode i. A term is a pair (cre, ann). A sign is 1 or -1, and Zero is None.

    python3 tests/rule.py     checks this file against itself and the specification's small cases
"""


def bits(word):
    """The modes of a word, ascending."""
    return [i for i in range(word.bit_length()) if word >> i & 1]


def size(word):
    """How many modes a word has."""
    return bin(word).count("1")


# Words and the phase rule


def ladder(creates, p, word):
    """One ladder operator on mode p: the new word and the sign, or None for Zero.

    Creating needs p empty, annihilating needs p occupied. The sign flips once for each occupied mode
    below p.
    """
    if word >> p & 1 == creates:
        return None
    return word ^ 1 << p, (-1) ** size(word & (1 << p) - 1)


def apply_term(cre, ann, ket):
    """A term on a ket: the new word and the sign, or None for Zero.

    A term is all creations in ascending mode order, left to right, then all annihilations in
    ascending order. The rightmost operator acts first.
    """
    operators = [(1, p) for p in bits(cre)] + [(0, p) for p in bits(ann)]
    word, sign = ket, 1
    for creates, p in reversed(operators):
        step = ladder(creates, p, word)
        if step is None:
            return None
        word, sign = step[0], sign * step[1]
    return word, sign


MISSING, OCCUPIED = 1, 2


def blocked(cre, ann, ket):
    """Why a term gives Zero on a ket, with a mode; None where it doesn't.

    MISSING with the lowest annihilated mode missing from the ket; if none is missing, OCCUPIED with the
    lowest created mode still occupied once the annihilated ones are removed.
    """
    missing = [p for p in bits(ann) if ladder(0, p, ket) is None]
    if missing:
        return MISSING, missing[0]
    removed, _ = apply_term(0, ann, ket)
    occupied = [p for p in bits(cre) if ladder(1, p, removed) is None]
    return (OCCUPIED, occupied[0]) if occupied else None


def count_before_each_set_bit(word, at):
    """For each mode of `at`, the modes of `word` below it; all added up."""
    return sum(q < p for p in bits(at) for q in bits(word))


# One product


def is_empty(left, right):
    """A mode lies in both creation words but not in L's annihilations, or in both annihilation words
    but not in R's creations."""
    (l_cre, l_ann), (r_cre, r_ann) = left, right
    return bool(l_cre & r_cre & ~l_ann or l_ann & r_ann & ~r_cre)


def common(left, right):
    """The modes in L's annihilations and R's creations."""
    return left[1] & right[0]


def branching(left, right):
    """The common modes that are in neither L's creations nor R's annihilations."""
    return common(left, right) & ~left[0] & ~right[1]


def row_words(left, right):
    """The rows' terms, in order: the lowest branching mode is the most significant choice, low rank
    (the mode in neither word) before high rank (the mode in both)."""
    if is_empty(left, right):
        return []
    (l_cre, l_ann), (r_cre, r_ann) = left, right
    both = common(left, right)
    rows = [(l_cre | r_cre & ~both, r_ann | l_ann & ~both)]
    for p in bits(branching(left, right)):
        rows = [row for cre, ann in rows for row in ((cre, ann), (cre | 1 << p, ann | 1 << p))]
    return rows


def times_ladder(terms, creates, p):
    """A sum of terms, {(cre, ann): coefficient}, times one ladder operator on its right.

    The operator moves left, past the annihilations, to its place. Each exchange flips the sign; where
    a creation meets its own annihilation there are two parts, one without both and one exchanged.
    """
    out = {}

    def put(cre, ann, coefficient):
        total = out.pop((cre, ann), 0) + coefficient
        if total:
            out[cre, ann] = total

    for (cre, ann), c in terms.items():
        passed = (-1) ** size(ann >> p + 1)
        if not creates:
            if not ann >> p & 1:
                put(cre, ann | 1 << p, c * passed)
        else:
            if ann >> p & 1:
                put(cre, ann ^ 1 << p, c * passed)
            if not cre >> p & 1:
                put(cre | 1 << p, ann, c * (-1) ** (size(ann) + size(cre >> p + 1)))
    return out


def multiply(left, right):
    """The product L R as {(cre, ann): coefficient}, by bringing it into order ladder by ladder."""
    terms = {left: 1}
    for p in bits(right[0]):
        terms = times_ladder(terms, 1, p)
    for p in bits(right[1]):
        terms = times_ladder(terms, 0, p)
    return terms


def mul_cmpnts(left, right):
    """The rows of one product as (ann, cre, coefficient), in the specification's order.

    Words and order come from the specification's description, coefficients from `multiply`.
    """
    terms = multiply(left, right)
    rows = row_words(left, right)
    assert sorted(rows) == sorted(terms), (left, right)
    return [(ann, cre, terms[cre, ann]) for cre, ann in rows]


# This file against itself


def word_of(*modes):
    return sum(1 << p for p in modes)


def check_cases():
    """Cases 1 to 13 of the specification."""
    t = lambda cre, ann: (word_of(*cre), word_of(*ann))
    products = [
        ((0,), (), (0,), (), []),
        ((0,), (0,), (0,), (0,), [((0,), (0,), 1)]),
        ((), (0,), (0,), (), [((), (), 1), ((0,), (0,), -1)]),
        ((), (0,), (1,), (), [((1,), (0,), -1)]),
        ((), (0,), (1,), (2,), [((1,), (0, 2), -1)]),
        ((0,), (2,), (1,), (), [((0, 1), (2,), -1)]),
        ((1,), (), (0,), (), [((0, 1), (), -1)]),
        ((), (0, 1), (0, 1), (),
         [((), (), -1), ((1,), (1,), 1), ((0,), (0,), 1), ((0, 1), (0, 1), 1)]),
    ]
    for l_cre, l_ann, r_cre, r_ann, expected in products:
        rows = [(word_of(*ann), word_of(*cre), sign) for cre, ann, sign in expected]
        assert mul_cmpnts(t(l_cre, l_ann), t(r_cre, r_ann)) == rows
    for ket in (0, 1, 2**63, 2**64 - 1):
        assert apply_term(0, 0, ket) == (ket, 1)
    assert apply_term(4, 1, 3) == (6, -1)
    assert apply_term(0, 4, 3) is None and apply_term(1, 0, 1) is None
    assert apply_term(1, 1, 1) == (1, 1)
    assert apply_term(2**63, 0, 2**63 - 1) == (2**64 - 1, -1)
    assert apply_term(0, 3, 3) == (0, -1) and apply_term(3, 0, 0) == (3, 1)
    assert blocked(0, 4, 3) == (MISSING, 2) and blocked(1, 0, 1) == (OCCUPIED, 0)


def check_blocked(m):
    """On m modes a term is blocked exactly where its ladders, one after the other, give Zero."""
    words = range(1 << m)
    inputs = [(cre, ann, ket) for cre in words for ann in words for ket in words]
    for words in inputs:
        assert (blocked(*words) is None) == (apply_term(*words) is not None), words
    return len(inputs)


def check_products(m):
    """Every product on m modes acts, as a sum of rows, as R then L on every word."""
    words = range(1 << m)
    terms = [(cre, ann) for cre in words for ann in words]
    table = {(term, ket): apply_term(*term, ket) for term in terms for ket in words}
    for left in terms:
        for right in terms:
            rows = mul_cmpnts(left, right)
            for ket in words:
                total = {}
                for ann, cre, c in rows:
                    if table[(cre, ann), ket]:
                        word, sign = table[(cre, ann), ket]
                        total[word] = total.get(word, 0) + c * sign
                first = table[right, ket]
                second = first and table[left, first[0]]
                expected = {second[0]: first[1] * second[1]} if second else {}
                assert {w: c for w, c in total.items() if c} == expected, (left, right, ket)
    return len(terms) ** 2


def check():
    """All of it, with what was compared; the first thing that is not so is an AssertionError."""
    check_cases()
    print("the specification's cases 1 to 13: as written there")
    print(f"terms on kets of 4 modes: {check_blocked(4)}, blocked exactly where they give Zero")
    for m in (1, 2, 3):
        print(f"products on {m} modes: {check_products(m)} pairs act as R then L on every word")


if __name__ == "__main__":
    check()
