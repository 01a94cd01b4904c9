"""Where the unchanged Rust and the specification part on operators: figures for docs/DIFFERENCES.md.

find_differences.py calls this. "Smallest" means the fewest modes, then the fewest terms, then the fewest ladder
operators, then the smallest words, annihilations first, then plus before minus.
"""
import collections
import itertools

from ask import ask, hexes, rule
from operators import (expected, float_answer, float_line, in_line, kinds, matrix, mirrored, projected, questions, read,
                       records, size_of)

ONE_OPERATOR = "adjoint", "hermitian", "conserves", "max_n_body", "active"
TWO_OPERATORS = "add", "sub", "mul", "commutator", "anticommutator"


def braces(rows):
    """An operator as a sum of coefficients and terms."""
    def one(ann, cre, c):
        modes = ["".join(f"{p}," for p in rule.bits(word))[:-1] for word in (cre, ann)]
        return f"{c:+d} {{{modes[0]}|{modes[1]}}}"
    return " ".join(one(*row) for row in rows) or "no terms"


def shown(answer):
    return braces(answer) if isinstance(answer, list) else str(answer)


def all_operators(m, n):
    """Every operator with n terms on m modes, coefficients 1 and -1."""
    words = range(1 << m)
    terms = [(ann, cre) for ann in words for cre in words]
    for chosen in itertools.combinations(terms, n):
        for signs in itertools.product((1, -1), repeat=n):
            yield [(*term, sign) for term, sign in zip(chosen, signs)]


def key_of(m, *operators):
    rows = [row for operator in operators for row in operator]
    words = [row[:2] for row in rows]
    return m, len(rows), size_of(rows), words, [-row[2] for row in rows]


class Smallest:
    """The smallest input of each kind of difference of one function, and how many there are."""

    def __init__(self, function):
        self.function, self.found, self.tally, self.asked = function, {}, collections.Counter(), 0

    def look(self, binary, corrected, inputs):
        inputs = list(inputs)
        fixed = questions(corrected, self.function, inputs) if corrected else [None] * len(inputs)
        for question, answer, other in zip(inputs, questions(binary, self.function, inputs), fixed):
            right, got = expected(self.function, *question), read(self.function, answer)
            assert other is None or read(self.function, other) == right, (self.function, question)
            self.asked += 1
            for kind in kinds(self.function, got, right):
                self.tally[kind] += 1
                if kind not in self.found or key_of(*question) < key_of(*self.found[kind][0]):
                    self.found[kind] = question, got, right

    def show(self, where):
        told = ", ".join(f"{kind} {n}" for kind, n in sorted(self.tally.items())) or "none differs"
        print(f"{self.function}: {self.asked} inputs, {where}: {told}")
        for kind, ((m, *operators), got, right) in sorted(self.found.items()):
            print(f"  smallest with {kind}: m = {m}: " + " and ".join(map(braces, operators)))
            print(f"    the Rust: {shown(got)}; the specification: {shown(right)}")


def show_one_operator(binary, corrected):
    for function in ONE_OPERATOR:
        smallest = Smallest(function)
        for m in (1, 2, 3):
            for n in (0, 1, 2):
                smallest.look(binary, corrected, ((m, rows) for rows in all_operators(m, n)))
        smallest.look(binary, corrected, ((4, rows) for rows in all_operators(4, 1)))
        smallest.show("all with up to two terms on 1 to 3 modes, and with one on 4, coefficients 1 and -1")


def show_two_operators(binary, corrected):
    on_one = [rows for n in (0, 1, 2) for rows in all_operators(1, n)]
    on_two = [rows for n in (0, 1) for rows in all_operators(2, n)]
    on_three = [rows for rows in all_operators(3, 1) if rows[0][2] == 1]
    for function in TWO_OPERATORS:
        smallest = Smallest(function)
        for m, some in ((1, on_one), (2, on_two), (3, on_three)):
            smallest.look(binary, corrected, ((m, *pair) for pair in itertools.product(some, some)))
        smallest.show("all pairs with up to two terms on 1 mode and one on 2, coefficients 1 and -1, and of terms on 3")


def show_matrices(binary, corrected):
    """Every operator with up to two terms and every basis of one or two words, on 1 and 2 modes."""
    inputs = [(m, rows, basis) for m in (1, 2) for n in (0, 1, 2) for rows in all_operators(m, n)
              for k in (1, 2) for basis in itertools.permutations(range(1 << m), k)]
    tally, smallest = collections.Counter(), None
    for question, got, other in zip(inputs, projected(binary, inputs), projected(corrected or binary, inputs)):
        right = matrix(*question)
        assert corrected is None or other == right
        tally["agree" if got == right else "mirrored" if got == mirrored(right) else "other"] += 1
        if got != right and (smallest is None or key_of(*question[:2]) < key_of(*smallest[0][:2])):
            smallest = question, got, right
    print(f"mat_ortho_projected: {len(inputs)} inputs:", dict(tally))
    (m, rows, basis), got, right = smallest
    print(f"  smallest: m = {m}: {braces(rows)}, basis {basis}: the Rust: {got}; the specification: {right}")


def show_answers(title, binary, lines):
    print(title)
    for line, answer in zip(lines, ask(binary, lines)):
        print(f"  {line}: {answer if len(answer) < 80 else f'{len(answer.split())} numbers'}")


def show_outside(binary):
    """Inputs that a record cannot hold, or that the specification refuses."""
    one, two, four = ((0, 0, c) for c in (1, 2, 4))
    repeated = [[one, two], [one, one], [one, two, four]]
    show_answers("a term twice in the first operand, and nothing to add", binary,
                 [f"{function} f 1 {in_line(rows)} 0" for rows in repeated for function in ("add", "sub")])
    show_answers("a term twice in the second operand", binary, [f"add f 1 0 {in_line([one, two])}"])
    show_answers("a term twice: the Hermitian test", binary, [f"hermitian f 1 {in_line(rows)}" for rows in repeated])
    show_answers("a zero coefficient", binary, ["add f 1 1 0 0 0 0", "add f 1 0 1 0 0 0"])
    show_answers("a word outside the modes", binary, ["add f 1 1 0 2 1 0", "elem f 1 1 2 2 1 2 2"])
    none, identity = in_line([]), in_line([one])
    tails = {"elem": "0 0", "proj": "1 0"}
    show_answers("no modes", binary, [
        f"{function} f 0 {rows} {tails.get(function, '')}".rstrip()
        for function in (*ONE_OPERATOR, "elem", "proj") for rows in (none, identity)])
    show_answers("65 modes", binary, [f"elem f 65 {none} 0 0"])
    show_answers("a basis of nine words; a word twice", binary,
                 [f"proj f 4 {none} 9 {hexes(*range(9))}", f"proj f 1 {none} 2 0 0"])


def show_floats(binary):
    """Sums and coefficients that aren't finite. The specification refuses with 13."""
    huge, not_finite = records.bits_of(1.7976931348623157e308), [records.bits_of(float(x)) for x in ("inf", "nan")]
    lines = [float_line(1, 1, [(0, 0, huge)] * 2, 0, 0)]
    lines += [float_line(1, 1, [(0, 0, bits)], 0, 0) for bits in not_finite]
    lines += [float_line(1, 1, [(0, 1, not_finite[0])], 0, 0), float_line(2, 1, [(0, 0, 0, not_finite[0])], 0, 0)]
    assert float_answer(1, 1, [(0, 0, huge)] * 2, 0, 0) is None
    show_answers("float elements that aren't finite", binary, lines)


def show(binary, corrected):
    show_one_operator(binary, corrected)
    show_two_operators(binary, corrected)
    show_matrices(binary, corrected)
    show_outside(binary)
    show_floats(binary)
