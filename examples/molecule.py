#!/usr/bin/env python3
"""The energy of a molecule by full configuration interaction, from its FCIDUMP.

    python3 examples/molecule.py [FILE..]       without names, LiH and H2O in STO-3G, examples/molecules/*.fcidump
    python3 examples/molecule.py --help         this text

The Hamiltonian is made twice. Of a record of whole numbers the library tells, exactly, that it is Hermitian and commutes
with the number of electrons, with Sz and with S^2. Of float terms it gives the elements between all determinants with the
molecule's numbers of up and down electrons; the lowest eigenvalue of their matrix is the energy. It is compared with that
in energies.txt beside the file, by the package that made the file. Status 0: as known, to 1e-9 hartree; 1: not so; 2: a file
that cannot be read or does not fit, or no library. The lowest determinant's energy is printed too, beside the SCF energy: it
is the same where the reference determinant is the lowest, which that of a stretched molecule need not be.
"""
import itertools
import math
import os
import sys
import time

from fcidump import (FileError, finest, float_hamiltonian, four_s2, helped, in_words, library, read, shipped, stop,
                     twice_sz)
import fermion

CLOSE = 1e-9  # hartree
MOST_STEPS = 100  # of Davidson's method; LiH takes 13, H2O 12
MOST_SWEEPS = 30  # of Jacobi's; some ten are enough
STRIPE = 64  # rows of the matrix that are asked for at once


def say(text):
    """What is being done, for the one who waits."""
    print(text, file=sys.stderr, flush=True)


# The exact statements


def commuting(record):
    """The commutators with N, 2 Sz and 4 S^2, by name: how many terms each has."""
    others = {"N": fermion.number(record.modes), "2 Sz": twice_sz(record.modes), "4 S2": four_s2(record.modes)}
    return {name: len(record.commutator(other)) for name, other in others.items()}


# The matrix


def determinants(integrals):
    """The occupation words with the molecule's numbers of electrons with spin up, in even modes, and with spin down."""
    up, down = ((integrals.electrons + sign * integrals.twice_spin) // 2 for sign in (1, -1))
    strings = [[sum(1 << 2 * p for p in chosen) for chosen in itertools.combinations(range(integrals.orbitals), count)]
               for count in (up, down)]
    return [one | two << 1 for one in strings[0] for two in strings[1]]


def assembled(terms, words):
    """The rows of the matrix of float terms, each as the columns and the values that are not zero."""
    rows = []
    for start in range(0, len(words), STRIPE):
        for row in terms.matrix(words[start:start + STRIPE], words):
            rows.append([(column, value) for column, value in enumerate(row) if value])
        say(f"  elements of {len(rows)} of {len(words)} determinants")
    return rows


def diagonal(rows):
    """The energies of the determinants; those that are zero are in no row."""
    return [dict(row).get(i, 0.0) for i, row in enumerate(rows)]


# The lowest eigenvalue


def dot(a, b):
    return math.fsum(map(float.__mul__, a, b))


def lowest_eigenvalue(rows, close=1e-8):
    """Of a symmetric matrix, its rows lists of (column, value), by Davidson's method.

    The residual's length is at most `close` at the end, the error of the value about its square. The starting vector has
    something of every determinant, no two alike, so that the lowest state is found whatever its symmetry.
    """
    energies = diagonal(rows)
    lowest = min(range(len(rows)), key=energies.__getitem__)
    fresh = [0.01 / (i + 2) for i in range(len(rows))]
    fresh[lowest] = 1.0
    basis, images = [], []
    while True:
        basis.append([x / math.sqrt(dot(fresh, fresh)) for x in fresh])
        images.append([math.fsum(value * basis[-1][column] for column, value in row) for row in rows])
        value, mix = lowest_of_small([[dot(a, b) for b in images] for a in basis])
        residual = [math.fsum(c * (image[i] - value * vector[i]) for c, vector, image in zip(mix, basis, images))
                    for i in range(len(rows))]
        fresh = apart([r / (value - d) if abs(value - d) > 1e-4 else r for r, d in zip(residual, energies)], basis)
        if dot(residual, residual) <= close**2 or len(basis) == len(rows) or not any(fresh):
            return value
        if len(basis) == MOST_STEPS:
            raise ArithmeticError(f"no lowest eigenvalue was found in {MOST_STEPS} steps")


def apart(vector, basis):
    """The vector without its parts along the basis; taken twice, as the first time rounds."""
    for known in basis + basis:
        part = dot(vector, known)
        vector = [x - part * y for x, y in zip(vector, known)]
    return vector


def lowest_of_small(matrix):
    """The lowest eigenvalue of a small symmetric matrix and its eigenvector, by Jacobi's rotations."""
    n = len(matrix)
    a = [row + [float(i == j) for j in range(n)] for i, row in enumerate(matrix)]  # the eigenvectors grow on the right
    for _ in range(MOST_SWEEPS):
        far = [(p, q) for p, q in itertools.combinations(range(n), 2)
               if abs(a[p][q]) > 1e-16 * (abs(a[p][p]) + abs(a[q][q]))]
        if not far:
            break
        for p, q in far:
            angle = 0.5 * math.atan2(2 * a[p][q], a[q][q] - a[p][p])
            c, s = math.cos(angle), math.sin(angle)
            a[p], a[q] = [c * x - s * y for x, y in zip(a[p], a[q])], [s * x + c * y for x, y in zip(a[p], a[q])]
            for row in a:
                row[p], row[q] = c * row[p] - s * row[q], s * row[p] + c * row[q]
    best = min(range(n), key=lambda i: a[i][i])
    return a[best][best], a[best][n:]


# One molecule


def known(path):
    """The energies beside the file, by name; none where energies.txt does not list it."""
    table = os.path.join(os.path.dirname(path), "energies.txt")
    try:
        with open(table, encoding="ascii") as file:
            lines = [line.split() for line in file]
        return {name: float(value) for file, *values in lines if file == os.path.basename(path)
                for name, value in zip(("nuclei", "SCF", "full CI"), values)}
    except OSError:
        return {}
    except ValueError as error:
        raise FileError(f"{table}: {error}") from None


def determinant_line(energy, scf):
    """A line with the lowest determinant's energy, and which one that is. The SCF energy is no test of it: it belongs to
    another determinant where the reference is not the lowest, and to none where the orbitals are not those of SCF."""
    if math.isnan(scf):
        return f"  lowest determinant: {energy:.12f} hartree, no SCF energy known"
    same = "the SCF determinant" if abs(energy - scf) <= CLOSE else "below SCF" if energy < scf else "above SCF"
    return f"  lowest determinant: {energy:.12f} hartree, SCF {scf:.12f}, apart by {abs(energy - scf):.1e}: {same}"


def full_ci_line(energy, reference):
    """A line with the full CI energy and the known one; whether they agree."""
    if math.isnan(reference):
        return f"  full CI: {energy:.12f} hartree, none known", True
    agrees = abs(energy - reference) <= CLOSE
    return (f"  full CI: {energy:.12f} hartree, known {reference:.12f}, apart by {abs(energy - reference):.1e}: "
            f"{'as known' if agrees else 'NOT as known'}"), agrees


def exact(integrals):
    """Prints what the library tells of the record; whether it is all as it must be."""
    record, scale = finest(integrals, four_s2(integrals.modes))
    hermitian, commutators = record.is_hermitian(), commuting(record)
    print(f"  as a record: {len(record)} terms on {record.modes} modes in units of {1 / scale:.0e} hartree; "
          f"Hermitian: {hermitian}; at most {record.max_n_body()} electrons at a time")
    told = (f"[H, {name}] has {terms or 'no'} terms" for name, terms in commutators.items())
    print(f"  exactly: {', '.join(told)}", flush=True)
    return hermitian and not any(commutators.values())


def run(path):
    """One molecule: prints what is found; whether it is as known."""
    integrals, references = read(path), known(path)
    print(f"{os.path.basename(path)}: {integrals.orbitals} orbitals, {integrals.electrons} electrons, "
          f"nuclei {integrals.core:.12f} hartree", flush=True)
    say("  the record and its commutators")
    if not exact(integrals):
        print("  NOT as it must be")
        return False
    terms, words = float_hamiltonian(integrals), determinants(integrals)
    rows = assembled(terms, words)
    print(f"  {len(words)} determinants, {sum(map(len, rows))} elements of {len(words)**2} are not zero")
    print(determinant_line(min(diagonal(rows)), references.get("SCF", math.nan)), flush=True)
    say("  the lowest eigenvalue")
    line, right = full_ci_line(lowest_eigenvalue(rows), references.get("full CI", math.nan))
    print(line, flush=True)
    return right


def main():
    if helped(__doc__):
        return 0
    library()
    started, right = time.monotonic(), True
    for path in sys.argv[1:] or shipped():
        try:
            right &= run(path)
        except (OSError, ValueError, ArithmeticError, fermion.Refusal) as error:
            stop(in_words(path, error))
    say(f"{time.monotonic() - started:.1f} s")
    return 0 if right else 1


if __name__ == "__main__":
    sys.exit(main())
