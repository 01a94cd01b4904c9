"""Asks the built Rust about operators, and compares its answers with tests/records.py.

An operator is a list of rows (ann, cre, coefficient). Coefficients are whole numbers, small enough that every
sum of the Rust's binary64s is exact; in float elements they are binary64s, given by their bits.
"""
import struct

from ask import ask, hexes, rule

import records

ROOM = records.HEADER + records.ROW * records.MAX_TERMS
WORK = 1 << 24
OPERATORS = "add", "sub", "mul", "commutator", "anticommutator", "adjoint"
# The Rust's questions and the calls that answer them.
CALLS = {"hermitian": "is_hermitian", "conserves": "conserves_particle_number", "active": "active_modes"}


# The line protocol


def in_line(rows):
    return " ".join([str(len(rows)), *(f"{hexes(ann, cre)} {c}" for ann, cre, c in rows)])


def out_of_line(answer):
    """The Rust's operator as rows ascending, zeros dropped, or None for a panic."""
    if answer.startswith("panic"):
        return None
    fields = iter(answer.split()[1:])
    rows = [(int(ann, 16), int(cre, 16), whole(float(next(fields)))) for ann, cre in zip(fields, fields)]
    assert len({row[:2] for row in rows}) == len(rows), answer
    return sorted(row for row in rows if row[2])


def whole(number):
    assert number == int(number) and abs(number) < 2**53, number
    return int(number)


def questions(binary, function, inputs):
    """The Rust's answers to (m, operators...) of one function."""
    return ask(binary, [" ".join([function, "f", str(m), *map(in_line, operators)]) for m, *operators in inputs])


# What the specification answers, in the form that the Rust's answer is read in


def expected(function, m, *operators):
    call = getattr(records, CALLS.get(function, function))
    lengths = {"add": [ROOM], "sub": [ROOM], "adjoint": [ROOM]}.get(function, [WORK, ROOM])
    args = [records.encode(m, rows) for rows in operators]
    answer = call(*args, *(lengths if function in OPERATORS else []))
    assert answer.numbers[0] == 0, (function, m, operators, answer.numbers)
    if function in OPERATORS:
        return records.decode(answer.lent[-1])[1]
    return answer.numbers[5]


def read(function, answer):
    """The Rust's answer, in the same form; None for a panic."""
    if answer.startswith("panic"):
        return None
    if function in OPERATORS:
        return out_of_line(answer)
    if function in ("hermitian", "conserves"):
        return {"true": 1, "false": 0}[answer]
    return int(answer, 16 if function == "active" else 10)


def kinds(function, got, right):
    """How an answer differs from the specification's.

    panic     the Rust panics
    yes, no   the Rust says yes, or no, and the answer is the other one
    identity  the coefficient of {|} is another one
    sign      a term has the opposite coefficient
    terms     a term has another coefficient otherwise, is missing, or should not be there
    lower     a smaller number
    number    another number otherwise
    """
    if got is None:
        return ["panic"]
    if got == right:
        return []
    if function in ("hermitian", "conserves"):
        return ["yes" if got else "no"]
    if function not in OPERATORS:
        return ["lower" if function == "max_n_body" and got < right else "number"]
    is_, should = ({row[:2]: row[2] for row in rows} for rows in (got, right))
    found = set()
    for term in is_.keys() | should.keys():
        a, b = is_.get(term, 0), should.get(term, 0)
        if a != b:
            found.add("identity" if term == (0, 0) else "sign" if a == -b else "terms")
    return sorted(found)


# Elements


def float_line(parts, m, rows, bra, ket):
    """rows are (ann, cre, bits of each part...); one part is real, two are complex."""
    terms = (f"{hexes(ann, cre)} " + " ".join(repr(records.float_of(bits)) for bits in c) for ann, cre, *c in rows)
    return " ".join(["elem", "fc"[parts - 1], str(m), str(len(rows)), *terms, hexes(bra, ket)])


def float_answer(parts, m, rows, bra, ket):
    """The specification's value, as bits of each part; None where it refuses."""
    ann, cre, *coefficients = zip(*rows) if rows else [()] * (2 + parts)
    answer = records.mat_elem(m, cre, ann, coefficients, bra, ket)
    if answer.numbers[0]:
        return None
    return list(struct.unpack("<2Q", answer.lent[0]))[:parts]


def projected(binary, inputs):
    """The Rust's matrices for (m, rows, basis) as lists of whole numbers by rows, or its words."""
    lines = [f"proj f {m} {in_line(rows)} {len(basis)} {hexes(*basis)}" for m, rows, basis in inputs]
    answers = ask(binary, lines)
    return [a if a.startswith(("panic", "nonorthogonal")) else [whole(float(x)) for x in a.split()] for a in answers]


def matrix(m, rows, basis):
    """The specification's matrix, as long as the basis."""
    answer = records.mat_ortho_projected(records.encode(m, rows), basis)
    assert answer.numbers[0] == 0
    entries = struct.unpack("<64q", answer.lent[0])
    return [entries[8 * i + j] for i in range(len(basis)) for j in range(len(basis))]


def mirrored(entries):
    """A matrix with its upper half overwritten by its lower half."""
    n = int(len(entries) ** 0.5)
    return [entries[n * max(i, j) + min(i, j)] for i in range(n) for j in range(n)]


def size_of(rows):
    """How many ladder operators an operator has."""
    return sum(rule.size(ann) + rule.size(cre) for ann, cre, _ in rows)
