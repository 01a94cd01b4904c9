"""The record: bytes that were accepted, how they are built and read, and the operators on them. docs/RECORD.md describes it."""
from __future__ import annotations

import importlib
import operator
import struct
from bisect import bisect_left
from typing import Any, Iterable, Iterator, List, Optional, Tuple, Union

from ._buffers import Readable, as_word, as_words, copy_of
from ._build import built
from ._face import call
from ._ladders import Ladders, Products, mode_count, multiplied_out
from ._matrix import signed, tiled
from ._text import exported, imported
from ._types import Columns, Term, Whole, whole, written_out
from ._work import HEADER, ROW, WORK_CEILING, adjoined, multiplied, summed


class Record:
    """An operator in bytes that the library accepted. It does not change, and equal operators are equal records.

    >>> record = Record.build(2, [(word(1), word(1), -1), (word(0), word(0), 1)])
    >>> print(record)
    1 {0|0} - 1 {1|1}
    >>> record.modes, len(record), record.weight
    (2, 2, 2)
    >>> Record(bytes(record)) == record
    True

    Operators are written as in mathematics. What the library cannot do is refused, as in the functions of the same meaning.

    >>> a, b = Record.ladders(2, [(0, 0)]), Record.ladders(2, [(0, 1)])
    >>> print(a * b + b * a, "and", 2 * a - a, "and", (a * b) ** 2)
    1 {|} and 1 {|0} and 1 {|} - 1 {0|0}
    >>> print(sum([a, b, a]) + 5, "and", a * b == 1 - b * a)  # a whole number is as many {|}
    5 {|} + 1 {0|} + 2 {|0} and True

    Any bytes may be given; what is not a record is refused.

    >>> Record(b"no record")
    Traceback (most recent call last):
    fermion.Refusal: refused 1 (operand 1, place 0): the header, the length, the mode count (1 to 64), the number of terms (at most 2,048) or the lengths of the lists break the rules
    """

    __slots__ = ("_accepted",)
    _accepted: bytes
    __array_ufunc__ = None  # so that a NumPy number times a record is left to the record

    def __init__(self, data: Readable) -> None:
        self._accepted = copy_of(data)
        call("check", self._accepted)

    # Building

    @classmethod
    def build(cls, modes: Whole, terms: Iterable[Tuple[Whole, Whole, Whole]]) -> Record:
        """The record of a sum of terms (creation word, annihilation word, coefficient), in any order and with repeats.

        Terms are sorted, like terms joined and zeros dropped. Refusals: 1 for the mode count; for each term in turn 2, its
        place being that in the list given; then 10 and 9, as for a sum.

        >>> Record.build(2, [(1, 2, 5), (1, 2, -5)]).weight
        0
        >>> Record.build(2, [(1, 2, 5), (4, 0, 1)])
        Traceback (most recent call last):
        fermion.Refusal: refused 2 (operand 1, place 1): a word of a term, or a mode of a line, is outside the modes
        >>> Record.build(2, [(1, 2, 5), (1, 1, 1.5)])
        Traceback (most recent call last):
        TypeError: term 1: the coefficient is 1.5, not a whole number
        """
        return Record(built(mode_count(modes), terms))

    @classmethod
    def ladders(cls, modes: Whole, ladders: Ladders, coeff: Whole = 1) -> Record:
        """The product of ladder operators in any order, leftmost first: (mode, 1) creates, (mode, 0) annihilates.

        The library's product multiplies them out, with the signs. Refusals: 1 for the mode count, 2 for a mode outside, 10
        and 9; 10 also where the ladders multiplied so far, from left to right, have more than 2,048 terms.

        >>> print(Record.ladders(4, [(3, 1), (0, 1)]))
        -1 {0,3|}
        >>> print(Record.ladders(1, [(0, 0), (0, 1)], coeff=5))
        5 {|} - 5 {0|0}
        """
        return cls.from_ladders(modes, [(ladders, coeff)])

    @classmethod
    def from_ladders(cls, modes: Whole, terms: Products[Whole]) -> Record:
        """The sum of products of ladders, each with its coefficient: a mapping {ladders: coefficient}, as OpenFermion writes
        them, or pairs. Refusals: as for one product, the place of 2 being that of the product.

        >>> print(Record.from_ladders(2, {((0, 1), (1, 0)): 3, ((1, 0), (0, 1)): 1, (): 7}))
        7 {|} + 2 {0|1}
        """
        m = mode_count(modes)
        return cls.build(m, ((cre, ann, count * coeff) for cre, ann, count, coeff in multiplied_out(m, terms, whole)))

    @classmethod
    def parse(cls, modes: Whole, text: Union[str, Readable], *, ceiling: Whole = WORK_CEILING) -> Record:
        """The operator that is written as ladder text, one product of ladders a line; `text()` writes one.

        A line is a whole number, then ladders such as `3^`, which creates mode 3, and `0_`, which annihilates mode 0, in any
        order and with repeats, each after one space, and a line feed, the last line too. Refusals: 1 for the mode count; for each
        line in turn, the place being the line from 0, 16 for broken grammar, 2 for a mode outside, 17 for more than 12 ladders;
        then 8, 7, 10. Work and `ceiling` are those of `import_`.

        >>> print(Record.parse(2, "3 0^ 1_\\n5 1_ 1^\\n"))
        5 {|} + 3 {0|1} - 5 {1|1}
        >>> Record.parse(2, "3 0^ 1_\\n+5\\n")
        Traceback (most recent call last):
        fermion.Refusal: refused 16 (operand 0, place 1): a line breaks the grammar of ladder text
        """
        return Record._written(imported(mode_count(modes), text, None, None, ceiling))

    @classmethod
    def _written(cls, data: bytes) -> Record:
        """Bytes that the library wrote as a record: it is proved that it accepts them."""
        made = cls.__new__(cls)
        made._accepted = data
        return made

    # Reading

    @property
    def modes(self) -> int:
        """The mode count m."""
        return int.from_bytes(self._accepted[4:8], "little")

    @property
    def weight(self) -> int:
        """The sum of the coefficients' magnitudes."""
        return call("check", self)[7]

    @property
    def data(self) -> memoryview:
        """The bytes, to be read where they stand."""
        return memoryview(self._accepted)

    @property
    def columns(self) -> Columns:
        """The creation words, the annihilation words and the coefficients, to be read where they stand: NumPy arrays where
        NumPy can be imported, else memoryviews.

        >>> [list(map(int, column)) for column in Record.build(2, [(1, 2, 5), (2, 2, -7)]).columns]
        [[1, 2], [2, 2], [5, -7]]
        """
        n, numpy = len(self), _numpy()
        views = [self.data[HEADER + 8 * n * at:HEADER + 8 * n * (at + 1)].cast(kind) for at, kind in enumerate("QQq")]
        ann, cre, coeff = views if numpy is None else map(numpy.asarray, views)
        return Columns(cre, ann, coeff)

    def creations(self, ann: Whole) -> List[int]:
        """The creation words of the terms with this annihilation word, ascending.

        >>> Record.build(2, [(1, 2, 5), (2, 2, 7), (0, 1, 1)]).creations(2)
        [1, 2]
        """
        start, length = call("block", self, as_word(ann, "the annihilation word"))[5:7]
        return list(struct.unpack_from(f"<{length // 8}Q", self._accepted, start))

    def __getitem__(self, words: Tuple[Whole, Whole]) -> int:
        """The coefficient of the term {cre|ann}, 0 where there is none.

        >>> record = Record.build(2, [(1, 2, 5), (2, 2, 7)])
        >>> record[word(0), word(1)], record[0, 0]
        (5, 0)
        """
        if not (isinstance(words, tuple) and len(words) == 2):
            raise TypeError("a record is indexed by two words: record[cre, ann]")
        cre, ann = as_word(words[0], "the creation word"), as_word(words[1], "the annihilation word")
        start, length = call("block", self, ann)[5:7]
        part = self.data[start:start + length].cast("Q")
        at = bisect_left(part, cre)
        if at == len(part) or part[at] != cre:
            return 0
        return int.from_bytes(self.data[start + 8 * (len(self) + at):][:8], "little", signed=True)

    def text(self) -> str:
        """The operator as ladder text, one line a term, as `parse` reads it. `str(record)` is for people: it shows the words.

        >>> record = Record.ladders(4, [(0, 0), (3, 1)], coeff=2)
        >>> record.text(), str(record)
        ('-2 3^ 0_\\n', '-2 {3|0}')
        >>> Record.parse(4, record.text()) == record
        True
        """
        return exported(self)

    def __len__(self) -> int:
        return (len(self._accepted) - HEADER) // ROW

    def __iter__(self) -> Iterator[Term]:
        n = len(self)
        columns = struct.unpack_from(f"<{2 * n}Q{n}q", self._accepted, HEADER)
        return map(Term, columns[n:2 * n], columns[:n], columns[2 * n:])

    def __bytes__(self) -> bytes:
        return self._accepted

    def __buffer__(self, flags: int, /) -> memoryview:
        return memoryview(self._accepted)  # memoryview(record) calls this from Python 3.12 on

    def __array__(self, dtype: Any = None, copy: Any = None) -> Any:
        """NumPy takes a record for one thing, as it takes a number, and not for a list of its terms."""
        made = importlib.import_module("numpy").empty((), dtype=object)
        made[()] = self
        return made

    def __eq__(self, other: object) -> bool:
        if not isinstance(other, Record):
            return NotImplemented
        return self._accepted == other._accepted

    def __hash__(self) -> int:
        return hash(self._accepted)

    def __reduce__(self) -> Tuple[object, ...]:
        return Record, (self._accepted,)  # checked again where it arrives

    def __str__(self) -> str:
        return written_out(self)

    def __repr__(self) -> str:
        return f"Record.build({self.modes}, {[tuple(term) for term in self]})"

    # Operators, each by the library's call

    def __add__(self, other: Union[Record, Whole]) -> Record:
        second = _operand(self, other)
        if second is None:
            return NotImplemented
        return Record._written(summed("add", self, second))

    def __sub__(self, other: Union[Record, Whole]) -> Record:
        second = _operand(self, other)
        if second is None:
            return NotImplemented
        return Record._written(summed("sub", self, second))

    def __mul__(self, other: Union[Record, Whole]) -> Record:
        second = _operand(self, other)
        if second is None:
            return NotImplemented
        return Record._written(multiplied("mul", self, second)[0])

    # A whole number on the left: it stands as well on the right, but for a difference.

    def __radd__(self, other: Whole) -> Record:
        return self + other

    def __rsub__(self, other: Whole) -> Record:
        return -self + other

    def __rmul__(self, other: Whole) -> Record:
        return self * other

    def __neg__(self) -> Record:
        return Record.build(self.modes, []) - self

    def __pos__(self) -> Record:
        return self

    def __pow__(self, exponent: Whole) -> Record:
        """The record multiplied with itself, by squaring; the power 0 is {|} with 1."""
        k = whole(exponent, "the exponent")
        if k < 0:
            raise ValueError(f"a record has no power {k}")
        made: Optional[Record] = None
        for digit in f"{k:b}" if k else "":
            made = self if made is None else made * made * self if digit == "1" else made * made
        return Record.build(self.modes, [(0, 0, 1)]) if made is None else made

    def adjoint(self) -> Record:
        """The adjoint.

        >>> print(Record.build(2, [(word(0, 1), 0, 1)]).adjoint())
        -1 {|0,1}
        """
        return Record._written(adjoined(self))

    def commutator(self, other: Readable) -> Record:
        """This record times the other, less the other times this.

        >>> a = Record.build(2, [(1, 2, 1)])
        >>> print(a.commutator(a.adjoint()))
        1 {0|0} - 1 {1|1}
        """
        return Record._written(multiplied("commutator", self, other)[0])

    def anticommutator(self, other: Readable) -> Record:
        """This record times the other, and the other times this.

        >>> print(Record.build(1, [(0, 1, 1)]).anticommutator(Record.build(1, [(1, 0, 1)])))
        1 {|}
        """
        return Record._written(multiplied("anticommutator", self, other)[0])

    def is_hermitian(self) -> bool:
        """Whether the record is its own adjoint."""
        return bool(call("is_hermitian", self)[5])

    def conserves_particle_number(self) -> bool:
        """Whether every term has as many creations as annihilations."""
        return bool(call("conserves_particle_number", self)[5])

    def max_n_body(self) -> int:
        """The largest rank of a term, the larger of its creation and annihilation counts; 0 for no terms."""
        return call("max_n_body", self)[5]

    def active_modes(self) -> int:
        """The word of all modes that occur in a term."""
        return call("active_modes", self)[5]

    # Elements

    def element(self, bra: Whole, ket: Whole) -> int:
        """The exact element between two occupation words. Refusal: 12.

        >>> Record.build(2, [(2, 0, 7)]).element(word(0, 1), word(0))
        -7
        """
        return signed(call("element", self, as_word(bra, "the bra"), as_word(ket, "the ket"))[5])

    def matrix(self, basis: Iterable[Whole]) -> List[List[int]]:
        """The exact elements between the words of a basis of any length, a row for each bra and a column for each ket.

        Refusals: 12 for each word in turn, then 14 for a word that stands twice; the place is that in the basis.

        >>> Record.build(2, [(1, 2, 3), (2, 2, 5)]).matrix([word(0), word(1)])
        [[0, 3], [0, 5]]
        """
        return tiled(self, self.modes, as_words(basis, "basis word {}"))


class Product(Record):
    """The record of a product, which also tells its branches: a work of 24 bytes for each was enough.

    It is a record wherever it stands; `record` is that record alone.

    >>> a, b = Record.build(1, [(0, 1, 1)]), Record.build(1, [(1, 0, 1)])
    >>> answer = commutator(commutator(a, b), a)
    >>> print(answer, "from", answer.branches, "branches, and", commutator(a, b) + b)
    2 {|0} from 3 branches, and 1 {|} + 1 {0|} - 2 {0|0}
    >>> answer == 2 * a == answer.record, len(answer)
    (True, 1)
    """

    __slots__ = ("_branches",)
    _branches: int

    def __init__(self, record: Readable, branches: Whole) -> None:
        super().__init__(record)
        self._branches = whole(branches, "the branches")

    @classmethod
    def _told(cls, data: bytes, branches: int) -> Product:
        """What the library answered."""
        made = cls.__new__(cls)
        made._accepted, made._branches = data, branches
        return made

    @property
    def record(self) -> Record:
        """The record alone, with the same bytes."""
        return Record._written(self._accepted)

    @property
    def branches(self) -> int:
        """The branches, over both orders for a commutator and an anticommutator."""
        return self._branches

    def __reduce__(self) -> Tuple[object, ...]:
        return Product, (self._accepted, self._branches)  # checked again where it arrives

    def __repr__(self) -> str:
        return f"Product({self.record!r}, {self._branches})"


def _operand(a: Record, other: Any) -> Optional[Record]:
    """What stands beside a record: another, or a whole number, which is the term {|} with this coefficient; else nothing."""
    if isinstance(other, Record):
        return other
    try:
        return Record.build(a.modes, [(0, 0, operator.index(other))])
    except TypeError:
        return None


def _numpy() -> Any:
    try:
        return importlib.import_module("numpy")
    except ImportError:
        return None
