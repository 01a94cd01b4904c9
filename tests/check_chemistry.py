#!/usr/bin/env python3
"""The molecules of examples/ and docs/CHEMISTRY.md: their Hamiltonians, element by element, beside the sums over orbitals and
spins as a textbook writes them, worked out ladder by ladder with rule.py from integrals that this file reads by itself;
matrices by hand; active spaces beside Psi4's energies; the page's examples, and the scales and refusals that it names."""
import doctest
import itertools
import math
import os
import random
import re
import sys

import face
import rule

sys.path[:0] = [os.path.join(face.ROOT, "bindings", "python"), os.path.join(face.ROOT, "examples")]
import fcidump  # noqa: E402
import fermion  # noqa: E402
import molecule  # noqa: E402

SEED = 20261207
MOLECULES = os.path.join(face.ROOT, "examples", "molecules")
SCALE = 10**12
# Full CI of Psi4 1.3.2 with the lowest orbitals frozen, in hartree: how many are frozen, determinants, electrons, energy.
FROZEN = {"lih": (1, 25, 2, -7.882175990788), "h2o": (2, 100, 6, -74.996645464190)}
# What docs/CHEMISTRY.md says: terms, weight in hartree, weight of 4 S2, largest power of ten for [H, 4 S2] and [H, N].
PAGE = {"lih": (631, 54.748808, 312, 13, 15), "h2o": (1086, 288.040918, 420, 12, 14)}
H2 = """ &FCI NORB=  2,NELEC= 2,MS2=0,
  ORBSYM=1,5,
  ISYM=1
 /
 0.674493D+00 1 1 1 1
 6.63472E-1 1 1 2 2

 .181287 1 2 2 1
 0.697397 2 2 2 2
 -1.252477 1 1 0 0
 -0.475934 2 2 0 0
 -0.5 1 0 0 0
 0.25 0 0 0 0
"""


def path(name):
    return os.path.join(MOLECULES, f"{name}.fcidump")


def table(name):
    """The integrals of a file in units of 1/SCALE hartree, each of the eight orders by itself: h[pq], g[pqrs] and core."""
    h, g, core = {}, {}, 0
    with open(path(name), encoding="ascii") as file:
        lines = file.read().split("&END\n")[1].splitlines()
    for line in reversed(lines):  # what stands first in the file counts
        value, *indices = line.split()
        i, j, k, l = (int(index) - 1 for index in indices)
        whole = round(float(value) * SCALE)
        if k >= 0:
            for p, q, r, s in ((i, j, k, l), (j, i, k, l), (i, j, l, k), (j, i, l, k)):
                g[p, q, r, s] = g[r, s, p, q] = whole
        elif i >= 0:
            h[i, j] = h[j, i] = whole
        else:
            core = whole
    return h, g, core


def applied(ladders, ket):
    """A product of ladders (mode, creates) on a ket, the rightmost first: the new word and the sign, or None."""
    word, sign = ket, 1
    for mode, creates in reversed(ladders):
        step = rule.ladder(creates, mode, word)
        if step is None:
            return None
        word, sign = step[0], sign * step[1]
    return word, sign


def twice_column(h, g, core, ket):
    """Twice the Hamiltonian on a ket: 2 core + 2 sum h_pq a+p aq + sum (pq|rs) a+p a+r as aq, by bra, zeros dropped."""
    column = {ket: 2 * core}

    def add(ladders, value):
        reached = applied(ladders, ket)
        if reached:
            column[reached[0]] = column.get(reached[0], 0) + reached[1] * value

    for (p, q), value in h.items():
        for spin in (0, 1):
            add(((2 * p + spin, 1), (2 * q + spin, 0)), 2 * value)
    for (p, q, r, s), value in g.items():
        for one, two in itertools.product((0, 1), repeat=2):
            add(((2 * p + one, 1), (2 * r + two, 1), (2 * s + two, 0), (2 * q + one, 0)), value)
    return {bra: value for bra, value in column.items() if value}


def check_elements(tally, name, kets):
    """Columns of the Hamiltonian, over all determinants and some words with other numbers of electrons."""
    integrals, rng = fcidump.read(path(name)), random.Random(SEED)
    record, floats = fcidump.hamiltonian(integrals, SCALE), fcidump.float_hamiltonian(integrals)
    words = molecule.determinants(integrals)
    others = [rng.randrange(1 << integrals.modes) for _ in range(20)]
    values = table(name)
    for ket in rng.sample(words, kets) + [0] + others[:3]:
        expected = twice_column(*values, ket)
        for bra in set(words) | set(expected) | set(others):
            exact = record.element(bra, ket)
            tally.same(f"{name}: exact elements, twice", 2 * exact, expected.get(bra, 0), (bra, ket))
            near = abs(floats.element(bra, ket) - exact / SCALE) < 1e-9
            tally.same(f"{name}: float elements beside them", near, True, (bra, ket))


def check_page(tally, name):
    """The figures of the page: terms, weights, and the scales at which 8 begins."""
    integrals = fcidump.read(path(name))
    terms, weight, spin_weight, for_spin, for_number = PAGE[name]
    record, spin = fcidump.hamiltonian(integrals, SCALE), fcidump.four_s2(integrals.modes)
    tally.same(f"{name}: terms", (len(record), fcidump.count(integrals, SCALE)), (terms, terms), name)
    tally.same(f"{name}: weights", (round(record.weight / SCALE, 6), spin.weight), (weight, spin_weight), name)
    for other, power in ((spin, for_spin), (fermion.number(integrals.modes), for_number)):
        for scale, refused in ((10**power, 0), (10**(power + 1), 8)):
            given = number_of(fcidump.hamiltonian(integrals, scale).commutator, other)
            tally.same(f"{name}: where 8 begins", given, refused, scale)
            finest = fcidump.finest(integrals, other, scale)
            tally.same(f"{name}: the finest scale", finest, (fcidump.hamiltonian(integrals, 10**power), 10**power), scale)
    with open(os.path.join(face.ROOT, "docs", "CHEMISTRY.md"), encoding="utf-8") as file:
        page = file.read()
    for text in (f"| {terms:,} |", f"| {weight:.6f} hartree |"):
        tally.same(f"{name}: on the page", text in page, True, text)
    small = fcidump.hamiltonian(integrals, 10**6)
    tally.same(f"{name}: H times H has too many terms", number_of(fermion.mul, small, small, ceiling=1 << 28), 10, name)


def check_names(tally):
    """The calls that docs/CHEMISTRY.md names: in the header, in the package, of a record, of float terms."""
    with open(os.path.join(face.ROOT, "docs", "CHEMISTRY.md"), encoding="utf-8") as file:
        page = file.read()
    with open(os.path.join(face.ROOT, "include", "fermion.h"), encoding="utf-8") as file:
        declared = set(re.findall(r"void (fermion_\w+)\(", file.read()))
    named = set(re.findall(r"\bfermion_\w+", page))
    tally.same("docs/CHEMISTRY.md, names in C", (sorted(named - declared), len(named) > 10), ([], True), "fermion.h")
    for pattern, owner in ((r"\bfermion\.([A-Za-z_]\w+)", fermion), (r"\bRecord\.(\w+)", fermion.Record),
                           (r"\b(?:a|record)\.(\w+)", fermion.Record), (r"\bFloatTerms\.(\w+)", fermion.FloatTerms),
                           (r"\bfcidump\.(\w+)\(", fcidump), (r"\bReason\.(\w+)", fermion.Reason)):
        names = set(re.findall(pattern, page)) - {"h"}  # the file fermion.h
        missing = [name for name in sorted(names) if not hasattr(owner, name)]
        tally.same("docs/CHEMISTRY.md, names in Python", (missing, bool(names)), ([], True), pattern)


def check_rounding(tally):
    """Integrals rounded, or coefficients over spin orbitals: the second has no exact spin symmetry."""
    integrals = fcidump.read(path("lih"))
    late = [(cre, ann, round(value * SCALE)) for cre, ann, value in fcidump.float_hamiltonian(integrals)]
    for record, terms in ((fcidump.hamiltonian(integrals, SCALE), 0), (fermion.Record.build(integrals.modes, late), 432)):
        tally.same("[H, 4 S2] by what is rounded", len(record.commutator(fcidump.four_s2(integrals.modes))), terms, "LiH")


def number_of(function, *args, **named):
    """The number of the refusal that a call gives, 0 for none."""
    try:
        function(*args, **named)
    except fermion.Refusal as refusal:
        return refusal.number
    return 0


def check_hydrogen(tally):
    """A file in another hand, and the matrix of molecular hydrogen by hand: J = (00|11), K = (01|01)."""
    integrals = fcidump.parse(H2.splitlines())
    tally.same("H2: what is read", integrals, fcidump.Integrals(
        2, 2, 0, (1, 5), 0.25, {(0, 0): -1.252477, (1, 1): -0.475934},
        {((0, 0), (0, 0)): 0.674493, ((1, 1), (0, 0)): 0.663472, ((1, 0), (1, 0)): 0.181287,
         ((1, 1), (1, 1)): 0.697397}), "H2")
    record = fcidump.hamiltonian(integrals, 10**6)
    both, mixed, repulsion, exchange = 2 * -1252477 + 674493, -1252477 - 475934, 663472, 181287
    elements = {(3, 3): both, (12, 12): 2 * -475934 + 697397, (3, 12): exchange, (5, 5): mixed + repulsion - exchange,
                (6, 6): mixed + repulsion, (6, 9): -exchange, (3, 5): 0, (0, 0): 0, (1, 1): -1252477}
    for (bra, ket), value in elements.items():
        tally.same("H2: elements by hand", record.element(bra, ket), value + 250000 * (bra == ket), (bra, ket))


def check_order(tally):
    """The order of ladders in a term, beside the descending one: docs/CHEMISTRY.md, `Conventions`."""
    def made(*ladders):
        return [tuple(term) for term in fermion.Record.ladders(2, ladders)]

    up, down = ((0, 1), (1, 1)), ((1, 1), (0, 1))
    tally.same("a+0 a+1 a0 a1", made(*up, (0, 0), (1, 0)), [(3, 3, 1)], "ascending")
    tally.same("a+1 a+0 a1 a0", made(*down, (1, 0), (0, 0)), [(3, 3, 1)], "descending")
    tally.same("a+0 a+1 a1 a0", made(*up, (1, 0), (0, 0)), [(3, 3, -1)], "n0 n1")
    tally.same("a+1 a+0", made(*down), [(3, 0, -1)], "a pair")
    term = fermion.Record.build(2, [(3, 3, 1)])
    tally.same("{0,1|0,1} is - n0 n1", [term.element(word, word) for word in range(4)], [0, 0, 0, -1], "its elements")
    tally.same("interaction", fermion.interaction(2, 0, 1), fermion.Record.build(2, [(3, 3, -1)]), "n0 n1")


def check_active(tally):
    """Active spaces: Psi4's energies with frozen orbitals; and nothing frozen, all kept, is the molecule itself."""
    for name, (lowest, count, electrons, known) in FROZEN.items():
        integrals = fcidump.read(path(name))
        tally.same(f"{name}, all orbitals kept", fcidump.active(integrals, [], range(integrals.orbitals)), integrals, name)
        frozen = fcidump.active(integrals, range(lowest), range(lowest, integrals.orbitals))
        words = molecule.determinants(frozen)
        rows = [list(enumerate(row)) for row in fcidump.float_hamiltonian(frozen).matrix(words, words)]
        energy = molecule.lowest_eigenvalue(rows)
        tally.same(f"{name}, orbitals frozen", (len(words), frozen.electrons, abs(energy - known) < 1e-9),
                   (count, electrons, True), energy)


def in_words(function, *args):
    """The sentence of the ValueError that a call gives, or None."""
    try:
        function(*args)
    except ValueError as error:
        return str(error)
    return None


def check_no_space(tally):
    """What is no active space of LiH, six orbitals and four electrons: the words that its sentence must have."""
    integrals, triplet = fcidump.read(path("lih")), fcidump.read(path("lih"))._replace(twice_spin=2)
    for what, space, frozen, kept, words in (
            ("frozen and not there", integrals, [9], [1], "orbital 9 is not one of 0 to 5"),
            ("kept and not there", integrals, [0], [1, 6], "orbital 6 is not one of 0 to 5"),
            ("below 0", integrals, [0], [1, -1], "orbital -1 is not one of 0 to 5: orbitals count from 0"),
            ("frozen and kept", integrals, [0, 1], [1, 2], "orbital 1 cannot be both"),
            ("frozen twice", integrals, [0, 0], [1, 2], "orbital 0 is frozen twice"),
            ("kept twice", integrals, [0], [1, 2, 1], "orbital 1 is kept twice"),
            ("too many frozen", integrals, [0, 1, 2], [3], "6 electrons cannot be frozen: there are 4"),
            ("none kept", integrals, [0], [], "at least one"),
            ("too few kept", integrals, [], [0], "4 electrons with MS2 0 do not fit into 1 kept"),
            ("a spin that is frozen", triplet, [0, 1], [2], "0 electrons with MS2 2 do not fit"),
            ("a spin that takes more room", triplet, [], [0, 1], "4 electrons with MS2 2 do not fit into 2 kept")):
        told = in_words(fcidump.active, space, frozen, kept)
        tally.same("no active space", told is not None and words in told, True, (what, told))
    for what, space, frozen, kept in (("all frozen", integrals, [1, 0], [5]), ("two up", triplet, [0], [4, 2]),
                                      ("full", integrals, [], [0, 1])):
        tally.same("at the edge of an active space", in_words(fcidump.active, space, frozen, kept), None, what)


def check_header(tally):
    """Blank lines before the header, and Fortran's repeats: the same as without them."""
    plain = H2.splitlines()
    tally.same("blank lines first", fcidump.parse(["", "  ", *plain]), fcidump.parse(plain), "H2")
    for labels, symmetry in (("2*1,3", (1, 1, 3)), ("1,2*3", (1, 3, 3)), ("3*2", (2, 2, 2)), ("1*1,1*2,3", (1, 2, 3))):
        lines = [f"&FCI NORB=3,NELEC=1*2,MS2=0,ORBSYM={labels},", "ISYM=1 /", "0.5 0 0 0 0"]
        tally.same("repeats in the header", fcidump.parse(lines), fcidump.Integrals(3, 2, 0, symmetry, 0.5, {}, {}), labels)


def two_sites(repulsion):
    """Two sites with a repulsion U on each, and hopping: the weight is 2 U + 4."""
    return fcidump.Integrals(2, 2, 0, (1, 1), 0.0, {(1, 0): -1.0},
                             {((0, 0), (0, 0)): repulsion, ((1, 1), (1, 1)): repulsion})


def check_finest(tally):
    """The scale by hand. For n orbitals 4 S2 weighs 12 n + 8 n (n - 1), for two 40; 40 (2 U + 4) 10^k and 4 (2 U + 4) 10^k
    are at most 2^60 = 1.15e18 up to k = 9 and 10 for U = 2,000,000. Already the record is refused with 9 at 10^12."""
    heavy, spin, number = two_sites(2e6), fcidump.four_s2(4), fermion.number(4)
    tally.same("a heavy Hamiltonian at 10^12", number_of(fcidump.hamiltonian, heavy, 10**12), 9, "U = 2,000,000")
    for other, weight, scale in ((spin, 40, 10**9), (number, 4, 10**10)):
        record, found = fcidump.finest(heavy, other)
        tally.same("the finest scale of a heavy Hamiltonian", (other.weight, found, record.weight),
                   (weight, scale, 4000004 * scale), weight)
    tally.same("the scale 1", fcidump.finest(two_sites(1e17), number)[1], 1, "4 (2 U + 4) is 8e17")
    for repulsion in (1e18, 1e30, 1e300):
        told = in_words(fcidump.finest, two_sites(repulsion), number)
        tally.same("no scale is small enough", told is not None and "too heavy" in told, True, (repulsion, told))
    pairs = [(p, q) for p in range(7) for q in range(p + 1)]  # 3,382 terms, which no scale makes fewer
    full = fcidump.Integrals(7, 2, 0, (1,) * 7, 0.0, {pair: 1.0 for pair in pairs}, {
        (left, right): 1.0 + i + 40 * j for i, left in enumerate(pairs) for j, right in enumerate(pairs) if left >= right})
    tally.same("too many terms at every scale", number_of(fcidump.finest, full, fermion.number(14)), 10, "7 orbitals")
    nothing = fermion.Record.build(4, [])
    told = in_words(fcidump.largest_scale, nothing, 10**9, spin)
    tally.same("no largest scale", told is not None and "without terms" in told, True, told)


def check_counts(tally):
    """Without any symmetry n orbitals have 1 + 2 n^2 + n^4 + 2 (n over 2)^2 terms: for n = 3 these are 118."""
    rng = random.Random(SEED)
    pairs = [(p, q) for p in range(3) for q in range(p + 1)]
    one = {pair: rng.uniform(1, 2) for pair in pairs}
    two = {(left, right): rng.uniform(1, 2) for left in pairs for right in pairs if left >= right}
    integrals = fcidump.Integrals(3, 2, 0, (1, 1, 1), 1.0, one, two)
    tally.same("terms without symmetry", fcidump.count(integrals, 10**9), 118, "3 orbitals")
    spin = [tuple(term) for term in fcidump.four_s2(2)]  # 3 n0 + 3 n1 - 6 n0 n1
    tally.same("4 S2 of one orbital", spin, [(1, 1, 3), (2, 2, 3), (3, 3, 6)], "4 S2")
    spin = [tuple(term) for term in fcidump.twice_sz(4)]  # up less down, up in modes 0 and 2
    tally.same("2 Sz of two orbitals", spin, [(1, 1, 1), (2, 2, -1), (4, 4, 1), (8, 8, -1)], "2 Sz")


def check_eigenvalues(tally):
    """Matrices whose lowest eigenvalue is known: 2 - 2 cos(pi / (n + 1)) of a chain, and blocks that do not touch."""
    chain = [[(j, 2.0 if i == j else -1.0) for j in (i - 1, i, i + 1) if 0 <= j < 40] for i in range(40)]
    value = molecule.lowest_eigenvalue(chain)
    tally.same("a chain of 40", abs(value - (2 - 2 * math.cos(math.pi / 41))) < 1e-12, True, value)
    rows = [[(1, 2.0)], [(0, 2.0), (1, -1.0)], [], [(3, 0.5)]]
    tally.same("a diagonal with its zeros", molecule.diagonal(rows), [0.0, -1.0, 0.0, 0.5], "rows without zeros")
    blocks = [[(0, 0.0)], [(1, 1.0), (2, 2.0)], [(1, 2.0), (2, 1.0)]]  # 0, and 1 - 2 and 1 + 2
    tally.same("a block beside the lowest element", round(molecule.lowest_eigenvalue(blocks), 9), -1.0, "blocks")


def check_examples_of_the_page(tally):
    """What docs/CHEMISTRY.md shows in Python is what Python answers."""
    os.chdir(face.ROOT)
    failed, tried = doctest.testfile(os.path.join(face.ROOT, "docs", "CHEMISTRY.md"), module_relative=False,
                                     optionflags=doctest.ELLIPSIS)
    tally.same("docs/CHEMISTRY.md in Python", (failed, tried > 15), (0, True), f"{tried} lines")


def main():
    tally = face.Tally()
    check_examples_of_the_page(tally)
    check_names(tally)
    check_hydrogen(tally)
    check_order(tally)
    check_counts(tally)
    check_eigenvalues(tally)
    check_active(tally)
    check_no_space(tally)
    check_header(tally)
    check_finest(tally)
    check_rounding(tally)
    for name, kets in (("lih", 16), ("h2o", 8)):
        check_elements(tally, name, kets)
        check_page(tally, name)
    tally.close()


main()
