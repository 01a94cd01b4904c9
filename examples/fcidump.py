#!/usr/bin/env python3
"""FCIDUMP files: the integrals of a molecule, and its Hamiltonian as float terms or as a record of whole numbers.

    python3 examples/fcidump.py [FILE..]    what each file holds, and how its Hamiltonian fits into a record; without names,
                                            the files of examples/molecules
    python3 examples/fcidump.py --help      this text

An FCIDUMP (P. J. Knowles and N. C. Handy, Computer Physics Communications 54 (1989) 75) has a header, &FCI NORB= NELEC=
MS2= ORBSYM= ISYM= &END, and then a line for each integral over real orbitals, its value and four indices that count from 1:
i j k l is (ij|kl) in chemists' notation, charge clouds ij and kl; i j 0 0 is the core Hamiltonian's h_ij; i 0 0 0 is an
orbital energy, not used here; 0 0 0 0 is the energy of the nuclei and of frozen orbitals. Each of the eight (ij|kl),
(ji|kl), .., (lk|ji) stands for all; one that is left out is zero.

Orbital p, counted from 0, is mode 2 p with spin up and mode 2 p + 1 with spin down.
"""
import glob
import math
import operator
import os
import re
import shutil
import sys
from collections import Counter
from typing import Dict, NamedTuple, Tuple

ROOT = os.path.dirname(os.path.dirname(os.path.abspath(__file__)))
sys.path.append(os.path.join(ROOT, "bindings", "python"))  # a package that is installed comes before the repository's
try:
    import fermion
except ImportError as error:
    print(f"{error}: the package is bindings/python of the repository, which pip can install too", file=sys.stderr)
    sys.exit(2)

SAME = 1e-10  # hartree: two lines for one integral agree up to this; what symmetry makes zero is not above it
MOST_ORBITALS = 9999
NUMBER = re.compile(r"[+-]?(\d+\.?\d*|\.\d+)([ED][+-]?\d+)?", re.ASCII | re.IGNORECASE)
INDEX = re.compile(r"\d+", re.ASCII)

Pair = Tuple[int, int]


class Integrals(NamedTuple):
    """What an FCIDUMP holds. Orbitals count from 0; one[pq] has p >= q, and two[pq, rs] has p >= q, r >= s and pq >= rs."""

    orbitals: int
    electrons: int
    twice_spin: int  # electrons with spin up less those with spin down
    symmetry: Tuple[int, ...]  # of each orbital, 1 to 8
    core: float
    one: Dict[Pair, float]
    two: Dict[Tuple[Pair, Pair], float]

    @property
    def modes(self):
        return 2 * self.orbitals

    def scaled(self, scale):
        """The integrals in units of 1/scale hartree, rounded to whole numbers. Each spatial integral is rounded once, so
        that equal ones stay equal, and spin symmetry stays exact."""
        one, two = ({key: rounded(value, scale) for key, value in part.items()} for part in (self.one, self.two))
        return self._replace(core=rounded(self.core, scale), one=one, two=two)


def rounded(value, scale):
    """The value in units of 1/scale. Where the product is too large for a float, the value itself is a whole number."""
    return round(value * scale) if math.isfinite(value * scale) else int(value) * scale


# Reading


class FileError(ValueError):
    """What is wrong with a file, in a sentence that names it."""


def read(path):
    """The integrals of a file. What is not a sound FCIDUMP is a ValueError that names the file and the line."""
    with open(path, encoding="ascii", errors="replace") as file:
        lines = file.read().splitlines()
    try:
        return parse(lines)
    except ValueError as error:
        raise FileError(f"{path}, {error}") from None


def parse(lines):
    """The integrals of a file's lines."""
    entries, last = header(lines)
    orbitals, electrons, twice_spin, symmetry = checked(entries, last)
    seen = {"core": {}, "energy": {}, "one": {}, "two": {}}  # of each integral, its value and its line
    for number, line in enumerate(lines[last:], last + 1):
        if not line.strip():
            continue
        value, indices = entry(line, number, orbitals)
        name, key = kind(indices, number)
        former, at = seen[name].setdefault(key, (value, number))
        if abs(value - former) > SAME:
            raise ValueError(f"line {number}: {value} contradicts line {at}, where the same integral is {former}")
        if name in ("one", "two") and abs(value) > SAME and not symmetric(indices, symmetry):
            raise ValueError(f"line {number}: by ORBSYM this integral is zero, not {value}")
    if not seen["core"]:
        raise ValueError(f"line {len(lines)}: the file ends without the energy of the nuclei, a line with indices 0 0 0 0")
    one, two = (without_zeros({key: value for key, (value, _) in seen[name].items()}) for name in ("one", "two"))
    return Integrals(orbitals, electrons, twice_spin, symmetry, seen["core"][()][0], one, two)


def header(lines):
    """The header's entries, name: (texts, line number), and the number of its last line. Blank lines may stand before it."""
    first = next((number for number, line in enumerate(lines, 1) if line.strip()), 1)
    if not lines or not re.match(r"\s*[&$]FCI\b", lines[first - 1], re.IGNORECASE):
        raise ValueError(f"line {first}: an FCIDUMP begins with &FCI")
    entries, name = {}, ""
    for number, line in enumerate(lines[first - 1:], first):
        text = re.sub(r"^\s*[&$]FCI\b", "", line, flags=re.IGNORECASE) if number == first else line
        text, *rest = re.split(r"[&$]END\b|/", text, maxsplit=1, flags=re.IGNORECASE)
        for token in re.sub(r"\s*=\s*", "= ", text).replace(",", " ").split():
            if not token.endswith("=") and not name:
                raise ValueError(f"line {number}: {token!r} stands in the header without a name")
            if not token.endswith("="):
                entries[name][0].extend(repeated(token, number))
                continue
            name = token[:-1].upper()
            if name in entries:
                raise ValueError(f"line {number}: {name} stands in the header twice")
            entries[name] = ([], number)
        if rest:
            if rest[0].strip():
                raise ValueError(f"line {number}: {rest[0].strip()!r} stands after the header's end")
            return entries, number
    raise ValueError(f"line {len(lines)}: the header has no end, &END or /")


def repeated(token, number):
    """The values that a token of the header stands for: Fortran writes 1, 1 as 2*1 too."""
    times, value = re.fullmatch(r"(?:(\d{1,9})\*)?(.+)", token, re.ASCII).groups()
    if not 1 <= int(times or 1) <= MOST_ORBITALS:  # looked at first: the values take memory
        raise ValueError(f"line {number}: {token!r} stands for {int(times)} values, not for 1 to {MOST_ORBITALS}")
    return [value] * int(times or 1)


def fits(electrons, twice_spin, orbitals):
    """Whether there are whole numbers of electrons with spin up and with spin down, and an orbital for each of them."""
    return (electrons + twice_spin) % 2 == 0 and abs(twice_spin) <= electrons <= 2 * orbitals - abs(twice_spin)


def checked(entries, last):
    """NORB, NELEC, MS2 and ORBSYM, if they fit together."""
    def whole(name, default):
        if name not in entries and not default:
            raise ValueError(f"line {last}: the header has no {name}")
        texts, number = entries.get(name, (default, last))
        if len(texts) != len(default or "1") or not all(re.fullmatch(r"[+-]?\d+", text, re.ASCII) for text in texts):
            count = "a whole number" if len(default or "1") == 1 else f"{len(default)} whole numbers"
            raise ValueError(f"line {number}: {name} is {','.join(texts) or 'empty'}, not {count}")
        return [int(text) for text in texts]

    (orbitals,), (electrons,), (twice_spin,) = whole("NORB", ""), whole("NELEC", ""), whole("MS2", "0")
    whole("ISYM", "1")
    if not 1 <= orbitals <= MOST_ORBITALS:
        raise ValueError(f"line {entries['NORB'][1]}: NORB is {orbitals}, not 1 to {MOST_ORBITALS}")
    if not fits(electrons, twice_spin, orbitals):
        raise ValueError(f"line {last}: NELEC {electrons} and MS2 {twice_spin} do not fit into {orbitals} orbitals")
    symmetry = tuple(whole("ORBSYM", "1" * orbitals))
    if not all(1 <= label <= 8 for label in symmetry):
        raise ValueError(f"line {entries['ORBSYM'][1]}: the labels of ORBSYM are 1 to 8")
    for name in ("UHF", "IUHF"):
        texts, number = entries.get(name, (["0"], last))
        if [text.upper() for text in texts] not in (["0"], [".FALSE."], ["F"], [".F."]):
            raise ValueError(f"line {number}: {name} tells of orbitals that differ for up and down, which are not read here")
    return orbitals, electrons, twice_spin, symmetry


def entry(line, number, orbitals):
    """The value and the four indices of a line."""
    fields = line.split()
    if len(fields) != 5:
        there = f"{len(fields)} field{'s' * (len(fields) != 1)}"
        raise ValueError(f"line {number}: a value and four indices are expected, not {there}")
    if not NUMBER.fullmatch(fields[0]) or not math.isfinite(float(re.sub("[dD]", "E", fields[0]))):
        raise ValueError(f"line {number}: {fields[0]!r} is not a number")
    for field in fields[1:]:
        if not INDEX.fullmatch(field) or int(field) > orbitals:
            raise ValueError(f"line {number}: the index {field!r} is not one of 0 to {orbitals}")
    return float(re.sub("[dD]", "E", fields[0])), tuple(int(field) for field in fields[1:])


def kind(indices, number):
    """What a line is about, and the key of its integral."""
    p, q, r, s = (index - 1 for index in indices)
    used = "".join("1" if index else "0" for index in indices)
    if used == "0000":
        return "core", ()
    if used == "1000":
        return "energy", p
    if used == "1100":
        return "one", pair(p, q)
    if used == "1111":
        return "two", pairs(p, q, r, s)
    raise ValueError(f"line {number}: the indices {' '.join(map(str, indices))} belong to no integral")


def pair(p, q):
    return (max(p, q), min(p, q))


def pairs(p, q, r, s):
    return (max(pair(p, q), pair(r, s)), min(pair(p, q), pair(r, s)))


def symmetric(indices, symmetry):
    """Whether the product of the orbitals' symmetries is the one that changes nothing: labels less 1 multiply as bits."""
    product = 0
    for index in filter(None, indices):
        product ^= symmetry[index - 1] - 1
    return product == 0


def active(integrals, frozen, kept):
    """The integrals of an active space: the frozen orbitals doubly occupied, those neither frozen nor kept empty.

    Orbitals count from 0. The kept ones are numbered anew, in the order given. What the frozen ones do to each other goes
    into the core energy, and what they do to the others into h_pq. What is no active space is a ValueError.
    """
    frozen, kept = ([operator.index(p) for p in part] for part in (frozen, kept))
    check_space(integrals, frozen, kept)

    def one(p, q):
        return integrals.one.get(pair(p, q), 0)

    def two(p, q, r, s):
        return integrals.two.get(pairs(p, q, r, s), 0)

    def felt(p, q):
        """h_pq, and what an electron feels of the frozen ones."""
        return one(p, q) + sum(2 * two(p, q, i, i) - two(p, i, q, i) for i in frozen)

    core = integrals.core + sum(one(i, i) + felt(i, i) for i in frozen)
    new = [(p, q) for p in range(len(kept)) for q in range(p + 1)]
    inner = {(p, q): felt(kept[p], kept[q]) for p, q in new}
    outer = {(pq, rs): two(*(kept[x] for x in pq + rs)) for pq in new for rs in new if pq >= rs}
    return integrals._replace(
        orbitals=len(kept), electrons=integrals.electrons - 2 * len(frozen),
        symmetry=tuple(integrals.symmetry[p] for p in kept), core=core, one=without_zeros(inner), two=without_zeros(outer))


def check_space(integrals, frozen, kept):
    """Whether these orbitals, frozen and kept, are an active space of the molecule; if not, a ValueError."""
    if not kept:
        raise ValueError("an active space keeps at least one orbital")
    for p, times in Counter(frozen + kept).items():
        if not 0 <= p < integrals.orbitals:
            raise ValueError(f"orbital {p} is not one of 0 to {integrals.orbitals - 1}: orbitals count from 0 here")
        if p in frozen and p in kept:
            raise ValueError(f"orbital {p} cannot be both frozen and kept")
        if times > 1:
            raise ValueError(f"orbital {p} is {'frozen' if p in frozen else 'kept'} twice")
    left = integrals.electrons - 2 * len(frozen)
    if left < 0:
        raise ValueError(f"{2 * len(frozen)} electrons cannot be frozen: there are {integrals.electrons}")
    if not fits(left, integrals.twice_spin, len(kept)):
        raise ValueError(f"{left} electrons with MS2 {integrals.twice_spin} do not fit into {len(kept)} kept orbitals")


def without_zeros(values):
    return {key: value for key, value in values.items() if value}


# The Hamiltonian


def orders(key):
    """The different (p, q, r, s) that one (pq|rs) stands for, or (p, q) for one h_pq."""
    def turned(pair):
        return {pair, pair[::-1]}
    if not isinstance(key[0], tuple):
        return sorted(turned(key))
    return sorted({left + right for one, two in (key, key[::-1]) for left in turned(one) for right in turned(two)})


def ladders(integrals):
    """The Hamiltonian as products of ladders, (mode, 1) a creation and (mode, 0) an annihilation, with their coefficients.

    It is the sum of h_pq a+p aq and half the sum of (pq|rs) a+p a+r as aq, over orbitals and over the spins of p, q and of
    r, s. Exchanging the two electrons, pq and rs, gives the same product again: half the sum is that with p's mode below r's.
    """
    yield (), integrals.core
    for key, value in integrals.one.items():
        for p, q in orders(key):
            for spin in (0, 1):
                yield ((2 * p + spin, 1), (2 * q + spin, 0)), value
    for key, value in integrals.two.items():
        for p, q, r, s in orders(key):
            for one, two in ((0, 0), (0, 1), (1, 0), (1, 1)):
                if 2 * p + one < 2 * r + two:
                    yield ((2 * p + one, 1), (2 * r + two, 1), (2 * s + two, 0), (2 * q + one, 0)), value


def float_hamiltonian(integrals):
    """The Hamiltonian with float coefficients, in hartree."""
    return fermion.FloatTerms.from_ladders(integrals.modes, ladders(integrals))


def hamiltonian(integrals, scale):
    """The Hamiltonian as a record, in units of 1/scale hartree."""
    return fermion.Record.from_ladders(integrals.modes, ladders(integrals.scaled(scale)))


def twice_sz(modes):
    """2 Sz: the electrons with spin up less those with spin down."""
    return fermion.number(modes, range(0, modes, 2)) - fermion.number(modes, range(1, modes, 2))


def four_s2(modes):
    """4 S^2 = (2 Sz)^2 + 2 (S+ S- + S- S+), which has whole coefficients."""
    raising = fermion.Record.from_ladders(modes, {((p, 1), (p + 1, 0)): 1 for p in range(0, modes, 2)})
    return twice_sz(modes) ** 2 + 2 * raising.anticommutator(raising.adjoint())


def count(integrals, scale):
    """The terms of the Hamiltonian, like ones joined, however many: also of one that is too long for a record."""
    sums = Counter()
    for product, value in ladders(integrals.scaled(scale)):
        for cre, ann, coeff in fermion.Record.ladders(integrals.modes, product):
            sums[cre, ann] += coeff * value  # here, as a record with a heavy value is refused
    return sum(coeff != 0 for coeff in sums.values())


def largest_scale(record, scale, other):
    """The scale above which the Hamiltonian, given as a record with another one, cannot be multiplied by the other record,
    which is refusal 8. It is good to some digits, as each scale rounds the integrals in its own way."""
    if not record.weight * other.weight:
        raise ValueError("a product with a record without terms is never refused: there is no largest scale")
    return scale * fermion.MAX_WEIGHT / (record.weight * other.weight)


def finest(integrals, other, scale=10**12):
    """The Hamiltonian as a record that can be multiplied by the other one, and its scale: the one given, or less by tens.
    A ValueError where none from 1 on is small enough."""
    tried = scale
    while tried >= 1:
        record = light(integrals, tried)
        if record is not None and record.weight * other.weight <= fermion.MAX_WEIGHT:
            return record, tried
        tried //= 10
    raise ValueError(f"the Hamiltonian is too heavy: no scale from 1 to {scale} gives a record that can be multiplied")


def light(integrals, scale):
    """The Hamiltonian as a record, or None where it is too heavy for one."""
    try:
        return hamiltonian(integrals, scale)
    except fermion.Refusal as refusal:
        if refusal.number not in (fermion.Reason.PRODUCT_TOO_HEAVY, fermion.Reason.RESULT_TOO_HEAVY):
            raise  # no other scale helps
        return None


# The program


def library():
    """Loads the library, or ends the program with a sentence."""
    try:
        fermion.load()
    except (OSError, ImportError) as error:  # not there, not a library, or one of another version
        needs = "" if shutil.which("rt") else "; tools/shared_object.sh needs the program rt, which is not on the PATH"
        stop(f"{error}{needs}")


def helped(text):
    """Whether the program was asked for help; prints it then."""
    asked = not {"-h", "--help"}.isdisjoint(sys.argv[1:])
    if asked:
        print(text.strip())
    return asked


def stop(sentence):
    print(sentence, file=sys.stderr)
    sys.exit(2)


def in_words(path, error):
    """What is wrong with a file, as a sentence that names it."""
    if isinstance(error, fermion.Refusal):
        return f"{path}: its Hamiltonian is {error}"
    if isinstance(error, OSError):
        return f"{path}: {error.strerror}"
    return str(error) if isinstance(error, FileError) else f"{path}: {error}"


def shipped():
    return sorted(glob.glob(os.path.join(ROOT, "examples", "molecules", "*.fcidump")))


def show(path, scale=10**9):
    """What a file holds, and how its Hamiltonian fits into a record."""
    integrals = read(path)
    print(f"{os.path.basename(path)}: {integrals.orbitals} orbitals, {integrals.electrons} electrons, "
          f"{len(integrals.one)} + {len(integrals.two)} integrals")
    terms = count(integrals, scale)
    if terms > fermion.MAX_TERMS:
        print(f"  {terms} terms on {integrals.modes} modes: more than the {fermion.MAX_TERMS} of a record")
        return
    if not terms:
        print(f"  no terms: at the scale {scale:.0e} every coefficient is zero or rounded to zero")
        return
    spin = four_s2(integrals.modes)
    record, scale = finest(integrals, spin, scale)
    print(f"  {terms} terms on {integrals.modes} modes, weight {record.weight / scale:.6f} hartree; "
          f"scales up to {largest_scale(record, scale, spin):.3g} for [H, 4 S2]")


def main():
    if helped(__doc__):
        return 0
    library()
    for path in sys.argv[1:] or shipped():
        try:
            show(path)
        except (OSError, ValueError, fermion.Refusal) as error:
            stop(in_words(path, error))
    return 0


if __name__ == "__main__":
    sys.exit(main())
