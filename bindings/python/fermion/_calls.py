"""The functions of include/fermion.h. docs/RECORD.md lists what each is refused with, and in which order."""
from __future__ import annotations

import ctypes
import struct
from typing import Iterable, List, Optional, Sequence, Tuple, Union

from ._buffers import Readable, Writable, as_floats, as_parts, as_word, as_words, view_of
from ._face import call
from ._matrix import projected, signed
from ._record import Product, Record
from ._report import counted
from ._shelf import cleared, dropped, got, put
from ._text import exported, imported
from ._types import TERM, Applied, Blocked, Branches, Checked, Comparison, Counted, Term, Whole, Zero, parts
from ._work import HEADER, ROW, WORK_CEILING, adjoined, front, multiplied, summed, with_rows


def apply(cre: Whole, ann: Whole, ket: Whole) -> Union[Applied, Zero]:
    """The term {cre|ann} on an occupation word: the new word and the sign, or Zero, which is false and says why. Never refused.

    >>> apply(word(2), word(0), word(0, 1))
    Applied(word=6, sign=-1)
    >>> apply(0, word(1, 2), word(1))
    Zero(reason=<Blocked.MISSING: 1>, mode=2)
    >>> print(apply(word(0), 0, word(0)))
    mode 0 is still occupied and cannot be created
    """
    words = as_word(cre, "the creation word"), as_word(ann, "the annihilation word"), as_word(ket, "the ket")
    applied, first, second = call("apply", *words)[5:]
    return Applied(first, -1 if second else 1) if applied else Zero(Blocked(first), second)


def mul_cmpnts(left: Tuple[Whole, Whole], right: Tuple[Whole, Whole], *, out: Optional[Writable] = None,
               ceiling: Whole = WORK_CEILING) -> List[Term]:
    """The terms of the product of two terms, each given as (creation word, annihilation word).

    There are 2^b of them for b modes that branch. Refusal 7: their rows do not fit into `out`, or, where none is lent, into
    `ceiling` bytes.

    >>> [str(term) for term in mul_cmpnts((0, word(0)), (word(0), 0))]
    ['1 {|}', '-1 {0|0}']
    """
    pairs = (parts(left, TERM[:2], "the left term"), parts(right, TERM[:2], "the right term"))
    words = [(as_word(cre, "the creation word"), as_word(ann, "the annihilation word")) for cre, ann in pairs]

    def attempt(rows: Writable) -> List[Term]:
        length = call("mul_cmpnts", *words[0], *words[1], rows)[3]
        return [Term(cre, ann, coeff) for ann, cre, coeff in struct.iter_unpack("<QQq", front(rows, length))]
    if out is not None:
        return attempt(out)
    return with_rows("mul", _alone(*words[0]), _alone(*words[1]), ceiling, attempt)


def check(a: Readable) -> Checked:
    """The modes, the number of terms and the weight of a record. Refusals: 1 to 5.

    >>> check(Record.build(3, [(1, 1, 4), (2, 1, -6)]))
    Checked(modes=3, terms=2, weight=10)
    """
    return Checked(*call("check", a)[5:])


def add(a: Readable, b: Readable, *, out: Optional[Writable] = None) -> Record:
    """The sum of two records. Refusals: 1 to 6, 10, 9; and 11 for an `out` that is lent.

    >>> print(add(Record.build(2, [(1, 1, 4)]), Record.build(2, [(1, 1, 1), (2, 2, 1)])))
    5 {0|0} + 1 {1|1}
    """
    return Record._written(summed("add", a, b, out))


def sub(a: Readable, b: Readable, *, out: Optional[Writable] = None) -> Record:
    """The first record less the second. Refusals: as for a sum.

    >>> print(sub(Record.build(2, [(1, 1, 4)]), Record.build(2, [(1, 1, 4)])))
    0
    """
    return Record._written(summed("sub", a, b, out))


def mul(a: Readable, b: Readable, *, work: Optional[Writable] = None, out: Optional[Writable] = None,
        ceiling: Whole = WORK_CEILING) -> Product:
    """The product a b. Refusals: 1 to 6, 8, 7, 10, 9; and 11 for an `out` that is lent.

    Where no `work` is lent, the branches are counted first and memory is taken for exactly these; 7 is given where that is
    more than `ceiling` bytes. `out` and `work` overlap nothing else of the call; that is a ValueError.

    >>> annihilate, create = Record.build(1, [(0, 1, 1)]), Record.build(1, [(1, 0, 1)])
    >>> product = mul(annihilate, create)
    >>> print(product.record, "from", product.branches, "branches")
    1 {|} - 1 {0|0} from 2 branches
    """
    return _multiplied("mul", a, b, work, out, ceiling)


def commutator(a: Readable, b: Readable, *, work: Optional[Writable] = None, out: Optional[Writable] = None,
               ceiling: Whole = WORK_CEILING) -> Product:
    """The commutator a b - b a. Refusals and `work`: as for a product.

    >>> raising, lowering = Record.build(2, [(1, 2, 1)]), Record.build(2, [(2, 1, 1)])
    >>> print(commutator(raising, lowering).record)
    1 {0|0} - 1 {1|1}
    """
    return _multiplied("commutator", a, b, work, out, ceiling)


def anticommutator(a: Readable, b: Readable, *, work: Optional[Writable] = None, out: Optional[Writable] = None,
                   ceiling: Whole = WORK_CEILING) -> Product:
    """The anticommutator a b + b a. Refusals and `work`: as for a product.

    >>> print(anticommutator(Record.build(1, [(0, 1, 1)]), Record.build(1, [(1, 0, 1)])).record)
    1 {|}
    """
    return _multiplied("anticommutator", a, b, work, out, ceiling)


def branches(a: Readable, b: Readable) -> Branches:
    """The branches of a b and of b a, counted without any memory. Refusals: 1 to 6; 7 where 24 times their sum is more than
    2^63.

    >>> annihilate, create = Record.build(1, [(0, 1, 1)]), Record.build(1, [(1, 0, 1)])
    >>> branches(annihilate, create)
    Branches(forward=2, backward=1)
    """
    return Branches(*call("branches", a, b)[4:6])


def adjoint(a: Readable, *, out: Optional[Writable] = None) -> Record:
    """The adjoint. Refusals: 1 to 5; and 11 for an `out` that is lent.

    >>> print(adjoint(Record.build(2, [(word(0, 1), 0, 1)])))
    -1 {|0,1}
    """
    return Record._written(adjoined(a, out))


def is_hermitian(a: Readable) -> bool:
    """Whether the record is its own adjoint. Refusals: 1 to 5.

    >>> is_hermitian(Record.build(2, [(1, 2, 3), (2, 1, 3)]))
    True
    """
    return bool(_told("is_hermitian", a))


def conserves_particle_number(a: Readable) -> bool:
    """Whether every term has as many creations as annihilations. Refusals: 1 to 5.

    >>> conserves_particle_number(Record.build(2, [(word(0, 1), 0, 1), (0, word(0, 1), 1)]))
    False
    """
    return bool(_told("conserves_particle_number", a))


def max_n_body(a: Readable) -> int:
    """The largest rank of a term, 0 for no terms. The rank is the larger of its creation and annihilation counts. Refusals:
    1 to 5.

    >>> max_n_body(Record.build(4, [(word(0, 1), word(2, 3), 1), (1, 1, 1)]))
    2
    >>> [max_n_body(Record.build(3, [term])) for term in ((0, 0, 1), (word(0), 0, 1), (word(0, 1), word(2), 1))]
    [0, 1, 2]
    """
    return _told("max_n_body", a)


def active_modes(a: Readable) -> int:
    """The word of all modes that occur in a term. Refusals: 1 to 5.

    >>> list(modes(active_modes(Record.build(64, [(word(0), word(63), 1), (word(2), 0, 1)]))))
    [0, 2, 63]
    """
    return _told("active_modes", a)


def report_add(a: Readable, report: Writable) -> Counted:
    """One record counted into a report: memory of 201 numbers of 64 bits, all zero at first, which are read and changed.

    A record that is refused raises nothing: it adds one to the refused records, and the answer has its refusal. Refusal: 15,
    for a report that counts 1,024 records, and for one with a number above its limit; the record is then not looked at, and
    the report is left as it was. It overlaps nothing else of the call; that is a ValueError. `Report` has the numbers by
    name.

    >>> from array import array
    >>> report = array("Q", [0] * 201)
    >>> report_add(Record.build(2, [(1, 1, 4), (2, 2, -6)]), report)
    Counted(accepted=True, refusal=None)
    >>> print(report_add(b"no record", report).refusal.reason.name)
    MALFORMED
    >>> report[:6].tolist(), Report(report).weight
    ([1, 1, 2, 0, 10, 10], 10)
    """
    return counted(a, report)


def import_(m: Whole, text: Union[str, Readable], *, work: Optional[Writable] = None, out: Optional[Writable] = None,
            ceiling: Whole = WORK_CEILING) -> Record:
    """The record of an operator on m modes that is written as ladder text: the sum of all lines, each multiplied out. The name
    ends in an underscore because `import` is a word of Python's.

    A line is a whole number, then ladders such as `3^`, which creates mode 3, and `0_`, which annihilates mode 0, each after
    one space, and a line feed; docs/RECORD.md has the grammar. Refusals: 1 for m; for each line in turn, the place being the
    line, 16, 2, 17; then 8, 7, 10; and 11 for an `out` that is lent.

    The work is 48 bytes times 2 to the number of ladders, for each line. Where no `work` is lent, it is tried with as much as
    lines of 4 ladders need, and while that is too little with four times as much; 7 is given where it is more than `ceiling`
    bytes. `out` and `work` overlap nothing else of the call; that is a ValueError.

    >>> print(import_(2, "1 0^ 0_\\n-1 1^ 1_\\n"))
    1 {0|0} - 1 {1|1}
    >>> import_(2, b"1 0^ 0_\\n5 0^ 2_\\n")
    Traceback (most recent call last):
    fermion.Refusal: refused 2 (operand 1, place 1): a word of a term, or a mode of a line, is outside the modes
    """
    return Record._written(imported(as_word(m, "the mode count"), text, work, out, ceiling))


def export(a: Readable, *, out: Optional[Writable] = None) -> str:
    """A record as ladder text: one line a term in the record's order, creations and then annihilations, each ascending.

    `import_` gives back the record from it, under the same m, where that is not refused: a line of more than 12 ladders is.
    Refusals: 1 to 5; and 11 for an `out` that is lent, which holds the text then, in ASCII.

    >>> print(export(Record.build(4, [(word(3), word(0, 1), -2), (0, 0, 7)])), end="")
    7
    -2 3^ 0_ 1_
    """
    return exported(a, out)


def shelf_clear(shelf: Writable) -> None:
    """Zeros in all of a shelf, or of whatever other memory is lent, of any length. Never refused. `Shelf` has the four calls as
    methods, and says what they are for.

    >>> shelf = bytearray(b"left by an earlier job")
    >>> shelf_clear(shelf)
    >>> any(shelf)
    False
    """
    cleared(shelf)


def shelf_put(shelf: Writable, party: Whole, a: Readable) -> int:
    """A record copied to a shelf, memory of 65,536 bytes that is read and changed; the slot that it has there.

    Refusals: 18 for the party, 19 for its half, 1 to 5 for the record, 20, 21; the shelf is then left as it was. It overlaps
    nothing else of the call; that is a ValueError.

    >>> shelf = bytearray(SHELF)
    >>> shelf_put(shelf, 1, Record.build(2, [])), shelf_put(shelf, 1, Record.build(3, []))
    (0, 1)
    >>> shelf[HALF:HALF + 8].hex(" ", 4), shelf[HALF + 32:HALF + 40].hex(" ", 4)  # where each begins, and its length
    ('00020000 20000000', '20020000 20000000')
    """
    return put(shelf, party, a)


def shelf_get(shelf: Readable, party: Whole, slot: Whole, *, out: Optional[Writable] = None) -> bytes:
    """A copy of what stands in a party's slot, which nobody has looked at since it was put there: `Record(..)` does.

    Refusals: 18, 19, 22; and 11 for an `out` that is lent, which holds the copy and zeros past it, and all zeros after a
    refusal. One of `HALF` bytes is never too short.

    >>> shelf = bytearray(SHELF)
    >>> slot = shelf_put(shelf, 0, Record.build(2, [(1, 2, 5)]))
    >>> print(Record(shelf_get(shelf, 0, slot)))
    5 {0|1}
    """
    return got(shelf, party, slot, out)


def shelf_drop(shelf: Writable, party: Whole, slot: Whole) -> None:
    """Zeros in place of what stood in a party's slot, and in its entry. Refusals: 18, 19, 22; the shelf is then left as it was.

    >>> shelf = bytearray(SHELF)
    >>> shelf_drop(shelf, 0, shelf_put(shelf, 0, Record.build(2, [(1, 2, 5)])))
    >>> any(shelf)
    False
    """
    dropped(shelf, party, slot)


def block(a: Readable, ann: Whole) -> memoryview:
    """The creation words of the terms with one annihilation word, as a part of the caller's own bytes.

    The part is empty where there is no such term, and for bytes that are not a record. Never refused.

    >>> record = Record.build(2, [(1, 2, 5), (2, 2, 7), (0, 1, 1)])
    >>> bytes(block(record, 2)).hex(" ", 8)
    '0100000000000000 0200000000000000'
    """
    start, length = call("block", a, as_word(ann, "the annihilation word"))[5:7]
    return view_of(a)[start:start + length]


def element(a: Readable, bra: Whole, ket: Whole) -> int:
    """The exact element between two occupation words. Refusals: 1 to 5, 12.

    >>> element(Record.build(2, [(2, 0, 7)]), word(0, 1), word(0))
    -7
    """
    return signed(call("element", a, *_ends(bra, ket))[5])


def mat_ortho_projected(a: Readable, basis: Iterable[Whole]) -> List[List[int]]:
    """The exact elements between up to 8 different words, a row for each bra and a column for each ket.

    Refusals: 1 to 5, 14, 12. `Record.matrix` takes a basis of any length.

    >>> mat_ortho_projected(Record.build(2, [(1, 2, 3), (2, 2, 5)]), [word(0), word(1)])
    [[0, 3], [0, 5]]
    """
    return projected(a, as_words(basis, "basis word {}"))


def compare(a: Readable, b: Readable) -> Comparison:
    """Whether two records are equal; if not, a bra and a ket at which their elements differ. Refusals: 1 to 6.

    >>> compare(Record.build(2, [(1, 2, 3)]), Record.build(2, [(1, 2, 4)]))
    Comparison(equal=False, bra=1, ket=2)
    """
    equal, bra, ket = call("compare", a, b)[5:]
    return Comparison(True) if equal else Comparison(False, bra, ket)


def mat_elem_real(m: Whole, cre: Iterable[Whole], ann: Iterable[Whole], coeff: Sequence[float], bra: Whole,
                  ket: Whole) -> float:
    """The element of terms with float coefficients, added in the order given, one rounding for each that joins.

    Refusals: 1, 2, 13, 12. `FloatTerms` lays the lists out once, for many elements.

    >>> mat_elem_real(2, [word(0), 0], [word(0), 0], [0.5, 0.25], word(0), word(0))
    0.75
    """
    value = (ctypes.c_double * 2)()
    call("mat_elem_real", *_words(m, cre, ann), as_floats(coeff, "coefficient {}"), *_ends(bra, ket), value)
    return value[0]


def mat_elem_complex(m: Whole, cre: Iterable[Whole], ann: Iterable[Whole], coeff: Sequence[complex], bra: Whole,
                     ket: Whole) -> complex:
    """The element of terms with complex coefficients: as `mat_elem_real`, each part by itself.

    >>> mat_elem_complex(2, [word(0), 0], [word(0), 0], [0.5j, 0.25], word(0), word(0))
    (0.25+0.5j)
    """
    value = (ctypes.c_double * 2)()
    call("mat_elem_complex", *_words(m, cre, ann), *as_parts(coeff, "coefficient {}"), *_ends(bra, ket), value)
    return complex(value[0], value[1])


# What several calls have in common


def _told(name: str, a: Readable) -> int:
    return call(name, a)[5]


def _alone(cre: int, ann: int) -> bytes:
    """The record of one term on 64 modes, with coefficient 1."""
    return struct.pack("<8I2Qq", 1, 64, 1, HEADER, HEADER + 8, HEADER + 16, HEADER + ROW, 0, ann, cre, 1)


def _multiplied(name: str, a: Readable, b: Readable, work: Optional[Writable], out: Optional[Writable],
                ceiling: Whole) -> Product:
    return Product._told(*multiplied(name, a, b, work, out, ceiling))


def _words(m: Whole, cre: Iterable[Whole], ann: Iterable[Whole]) -> Tuple[object, ...]:
    return as_word(m, "the mode count"), as_words(cre, "creation word {}"), as_words(ann, "annihilation word {}")


def _ends(bra: Whole, ket: Whole) -> Tuple[int, int]:
    return as_word(bra, "the bra"), as_word(ket, "the ket")
