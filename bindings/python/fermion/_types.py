"""What calls answer: a refusal, and the values of the calls; words, and whole numbers as callers give them."""
from __future__ import annotations

import operator
from dataclasses import dataclass
from enum import IntEnum
from typing import Any, Iterable, Iterator, Literal, NamedTuple, Optional, SupportsIndex, Tuple

#: A whole number as a caller gives it: an int, or anything else that is one, such as NumPy's.
Whole = SupportsIndex


class Reason(IntEnum):
    """The refusals by name. docs/RECORD.md says when exactly each is given.

    >>> Reason(7)
    <Reason.ROWS_DO_NOT_FIT: 7>
    """

    MALFORMED = 1
    WORD_OUTSIDE = 2
    OUT_OF_ORDER = 3
    ZERO_COEFF = 4
    TOO_HEAVY = 5
    MODES_DIFFER = 6
    ROWS_DO_NOT_FIT = 7
    PRODUCT_TOO_HEAVY = 8
    RESULT_TOO_HEAVY = 9
    TOO_MANY_TERMS = 10
    OUTPUT_TOO_SHORT = 11
    OCCUPATION_OUTSIDE = 12
    NOT_FINITE = 13
    BAD_BASIS = 14
    BAD_REPORT = 15
    BAD_LINE = 16
    TOO_MANY_LADDERS = 17
    NO_SUCH_PARTY = 18
    DAMAGED_HALF = 19
    NO_FREE_SLOT = 20
    NO_GAP = 21
    NO_SUCH_SLOT = 22


#: The refusals in words.
SENTENCES = {
    1: "the header, the length, the mode count (1 to 64), the number of terms (at most 2,048) or the lengths of the lists "
       "break the rules",
    2: "a word of a term, or a mode of a line, is outside the modes",
    3: "a term does not stand above the one before it",
    4: "a coefficient is zero",
    5: "the weight is above 2^60",
    6: "the mode counts of the two records differ",
    7: "the rows, 24 bytes each, do not fit",
    8: "the product of the two weights, or the weight that the lines may come to, is above 2^60",
    9: "the weight of the result is above 2^60",
    10: "the result has more than 2,048 terms",
    11: "the output is shorter than the record or the text of the result",
    12: "a bra, a ket or a basis word is outside the modes",
    13: "a float coefficient or a running sum is not finite",
    14: "the basis has more than 8 words, or a word twice",
    15: "the report counts 1,024 records, or one of its numbers is above its limit",
    16: "a line breaks the grammar of ladder text",
    17: "a line has more than 12 ladders",
    18: "the party is not 0 or 1",
    19: "the party's half of the shelf is damaged, or the shelf is not 65,536 bytes",
    20: "the party has no free slot",
    21: "no gap of the party's half is long enough for the record",
    22: "the slot is empty or unknown",
}


class Refusal(Exception):
    """A call that was refused: which number, of which operand, at which place.

    >>> refusal = Refusal(2, 1, 3)
    >>> print(refusal)
    refused 2 (operand 1, place 3): a word of a term, or a mode of a line, is outside the modes
    >>> refusal.reason is Reason.WORD_OUTSIDE
    True
    """

    def __init__(self, number: int, operand: int, place: int) -> None:
        super().__init__(number, operand, place)
        self.number = number
        self.operand = operand
        self.place = place

    @property
    def reason(self) -> Reason:
        """The number by name; a ValueError for one that this package has no name for."""
        return Reason(self.number)

    @property
    def sentence(self) -> str:
        """The number in words."""
        return SENTENCES.get(self.number, "a refusal that this module has no words for")

    def __str__(self) -> str:
        return f"refused {int(self.number)} (operand {self.operand}, place {self.place}): {self.sentence}"


#: What a term is given as.
TERM = ("creation word", "annihilation word", "coefficient")


class Term(NamedTuple):
    """A creation word, an annihilation word and a coefficient.

    >>> print(Term(word(0, 1), word(2), -3))
    -3 {0,1|2}
    """

    cre: int
    ann: int
    coeff: int

    def __str__(self) -> str:
        return f"{self.coeff} {{{_listed(self.cre)}|{_listed(self.ann)}}}"


class Applied(NamedTuple):
    """The new word, and the sign, 1 or -1, of a term applied to a word."""

    word: int
    sign: int


class Blocked(IntEnum):
    """Why a term gives nothing on a word, by name.

    MISSING: an annihilated mode is missing from the word. OCCUPIED: none is missing, and a created mode is still occupied
    once the annihilated ones are removed.
    """

    MISSING = 1
    OCCUPIED = 2


@dataclass(frozen=True)  # not a tuple, which would equal the Applied that has its two numbers
class Zero:
    """A term that gives nothing on a word: why, and the lowest mode that blocks it. It is false, and prints as a sentence.

    >>> print(Zero(Blocked.MISSING, 3))
    mode 3 is not occupied and cannot be annihilated
    >>> print(Zero(Blocked.OCCUPIED, 0))
    mode 0 is still occupied and cannot be created
    """

    reason: Blocked
    mode: int

    def __bool__(self) -> Literal[False]:
        return False

    def __str__(self) -> str:
        if self.reason == Blocked.MISSING:
            return f"mode {self.mode} is not occupied and cannot be annihilated"
        return f"mode {self.mode} is still occupied and cannot be created"


class Checked(NamedTuple):
    """The modes, the number of terms and the weight of an accepted record."""

    modes: int
    terms: int
    weight: int


class Branches(NamedTuple):
    """The branches of the products a b and b a: a work of 24 bytes for each is enough.

    >>> Branches(2, 1).both
    3
    """

    forward: int
    backward: int

    @property
    def both(self) -> int:
        """Those of the commutator and of the anticommutator."""
        return self.forward + self.backward


class Comparison(NamedTuple):
    """Whether two records are equal; if not, a bra and a ket at which their elements differ."""

    equal: bool
    bra: Optional[int] = None
    ket: Optional[int] = None


class Counted(NamedTuple):
    """Whether a record was accepted into a report; if not, its own refusal, which is told and not raised. It is true where the
    record was accepted.

    >>> bool(Counted(True)), bool(Counted(False, Refusal(1, 1, 0)))
    (True, False)
    """

    accepted: bool
    refusal: Optional[Refusal] = None

    def __bool__(self) -> bool:
        return self.accepted


class Share(NamedTuple):
    """How many of a report's terms have one rank, and their weight."""

    terms: int
    weight: int


class Columns(NamedTuple):
    """The three columns of a record: NumPy arrays where NumPy is there, else memoryviews."""

    cre: Any
    ann: Any
    coeff: Any


def whole(number: Whole, what: str, *places: int) -> int:
    """A Python number of what is one: others may wrap at 64 bits. Anything else is a TypeError that names the entry, `what`
    with its places put in."""
    try:
        return operator.index(number)
    except TypeError:
        raise TypeError(f"{what.format(*places)} is {number!r}, not a whole number") from None


def parts(entry: Any, form: Tuple[str, ...], what: str, *places: int) -> Tuple[Any, ...]:
    """The parts of an entry that has as many as its form; anything else is a TypeError that names the entry."""
    try:
        made = tuple(entry)
    except TypeError:
        made = ()
    if len(made) != len(form):
        raise TypeError(f"{what.format(*places)} is {entry!r}, not ({', '.join(form)})")
    return made


def word(*modes: Whole) -> int:
    """The word that holds these modes. A mode given twice is in it once.

    >>> word(0, 2)
    5
    """
    made = 0
    for place, given in enumerate(modes):
        mode = whole(given, "mode {} of the word", place)
        if not 0 <= mode < 64:
            raise ValueError(f"a mode is 0 to 63, not {mode}")
        made |= 1 << mode
    return made


def modes(word: Whole) -> Iterator[int]:
    """The modes of a word, ascending.

    >>> list(modes(5))
    [0, 2]
    """
    held = whole(word, "the word")
    if not 0 <= held < 1 << 64:
        raise ValueError(f"the word is {held}, not a number of 64 bits without a sign")
    return (mode for mode in range(64) if held >> mode & 1)


def _listed(word: int) -> str:
    return ",".join(map(str, modes(word)))


def written_out(terms: Iterable[Term]) -> str:
    """A sum of terms for people, 0 if there are none."""
    text = " + ".join(map(str, terms))
    return text.replace("+ -", "- ") or "0"
