#!/usr/bin/env python3
"""The ground state of molecular hydrogen, its Hamiltonian as a record with whole-number coefficients.

STO-3G, 1.401 bohr. The integrals over the two molecular orbitals are those of J. D. Whitfield, J. Biamonte and
A. Aspuru-Guzik, Molecular Physics 109 (2011) 735, in millionths of a hartree; the values of A. Szabo and N. S. Ostlund,
Modern Quantum Chemistry, section 3.5.2, at 1.4 bohr agree with them to three digits.

The library tells that the record is Hermitian and conserves the number of particles, which is that its commutator with the
number operator has no terms, and gives its exact matrix on the six words with two electrons. The lowest eigenvalue of that
matrix and the repulsion of the nuclei are the energy. molecule.py does the same with larger molecules, from files.
"""
import itertools
import sys

from fcidump import library
from molecule import lowest_eigenvalue
from fermion import Record, number

SCALE = 10**6
DISTANCE = 1.401  # bohr
KNOWN = -1.1373  # hartree, full configuration interaction in this basis
CLOSE = 1e-4
MODES = 4  # bonding up, bonding down, antibonding up, antibonding down
CORE = {(0, 0): -1252477, (1, 1): -475934}  # orbitals (p, q) of the core Hamiltonian
REPULSION = {  # orbitals (pq|rs), charge clouds pq and rs
    (0, 0, 0, 0): 674493, (1, 1, 1, 1): 697397, (0, 0, 1, 1): 663472, (1, 1, 0, 0): 663472,
    (0, 1, 0, 1): 181287, (0, 1, 1, 0): 181287, (1, 0, 0, 1): 181287, (1, 0, 1, 0): 181287,
}


def create(orbital, spin):
    return (2 * orbital + spin, 1)


def annihilate(orbital, spin):
    return (2 * orbital + spin, 0)


def hamiltonian():
    """The sum of h_pq a+p aq and half the sum of (pq|rs) a+p a+r as aq, over both spins of each electron. Exchanging the two
    electrons gives the same product again: half the sum is that with p's mode below r's."""
    terms = {}
    for ((p, q), value), spin in itertools.product(CORE.items(), (0, 1)):
        terms[create(p, spin), annihilate(q, spin)] = value
    for ((p, q, r, s), value), one, two in itertools.product(REPULSION.items(), (0, 1), (0, 1)):
        if create(p, one) < create(r, two):
            terms[create(p, one), create(r, two), annihilate(s, two), annihilate(q, one)] = value
    return Record.from_ladders(MODES, terms)


def main():
    library()
    record = hamiltonian()
    print(f"molecular hydrogen, STO-3G, {DISTANCE} bohr: {len(record)} terms on {MODES} spin orbitals, "
          f"{len(bytes(record))} bytes")
    hermitian, conserving = record.is_hermitian(), record.conserves_particle_number()
    commutes = len(record.commutator(number(MODES))) == 0
    print(f"Hermitian: {hermitian}; conserves the number of particles: {conserving}; "
          f"[H, number operator] has no terms: {commutes}")
    basis = [word for word in range(1 << MODES) if bin(word).count("1") == 2]
    matrix = record.matrix(basis)
    print("its matrix on the words with two electrons, in millionths of a hartree:")
    for bra, row in zip(basis, matrix):
        print(f"  {bra:04b} |" + "".join(f"{entry:10}" for entry in row))
    electrons = lowest_eigenvalue([list(enumerate(map(float, row))) for row in matrix]) / SCALE
    energy = electrons + 1 / DISTANCE
    right = hermitian and conserving and commutes and abs(energy - KNOWN) < CLOSE
    print(f"electrons {electrons:.6f} and nuclei {1 / DISTANCE:.6f}: {energy:.6f} hartree, known {KNOWN}")
    print("as known" if right else "NOT as known")
    return 0 if right else 1


if __name__ == "__main__":
    sys.exit(main())
