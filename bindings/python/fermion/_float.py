"""Lists of terms with float coefficients, laid out once for many elements."""
from __future__ import annotations

import ctypes
import math
from array import array
from functools import partial
from typing import Any, Callable, Dict, Iterable, Iterator, List, Sequence, Tuple, Union

from ._buffers import as_float, as_floats, as_parts, as_word, as_words, has_complex, place_of
from ._face import bare
from ._ladders import Products, mode_count, multiplied_out
from ._types import TERM, Reason, Refusal, Whole, parts

Number = Union[float, complex]
#: A call, and where it has its bra and its ket, its value and its answer.
Prepared = Tuple[Callable[[], None], "array[int]", "array[float]", "array[int]"]


class FloatTerms:
    """Terms (creation word, annihilation word, float or complex coefficient), added in the order given.

    The lists are laid out here, once; an element then costs little more than the library's own call. The elements are complex
    as soon as one coefficient is. Refusals: 1 for the mode count and for more than 2,048 terms; for each term in turn 2, 13.

    >>> terms = FloatTerms(2, [(word(0), word(0), 0.5), (word(0), word(1), 0.25)])
    >>> terms.element(bra=word(0), ket=word(1))
    0.25
    >>> terms.matrix([word(0), word(1)], [word(0), word(1)])
    [[0.5, 0.25], [0.0, 0.0]]
    >>> len(terms), terms.modes
    (2, 2)
    """

    __slots__ = ("_modes", "_cre", "_ann", "_parts", "_complex", "_fixed", "_function", "_spare")
    _parts: Tuple["array[float]", ...]
    _fixed: List[Any]
    _function: Any
    _spare: List[Prepared]

    def __init__(self, modes: Whole, terms: Iterable[Tuple[Whole, Whole, Number]]) -> None:
        cre, ann, coeff = array("Q"), array("Q"), []
        for place, term in enumerate(terms):
            creations, annihilations, number = parts(term, TERM, "term {}", place)
            cre.append(as_word(creations, "term {}: the creation word", place))
            ann.append(as_word(annihilations, "term {}: the annihilation word", place))
            coeff.append(_number(number, "term {}: the coefficient", place))
        self._lay_out(modes, cre, ann, coeff)

    @classmethod
    def from_columns(cls, modes: Whole, cre: Iterable[Whole], ann: Iterable[Whole], coeff: Iterable[Number]) -> FloatTerms:
        """The same from three lists. NumPy arrays of 64-bit words without a sign, of floats and of complex numbers are copied
        whole.

        >>> FloatTerms.from_columns(2, [1, 1], [1, 2], [0.5, 0.25j]).element(1, 2)
        0.25j
        """
        made = cls.__new__(cls)
        listed = coeff if hasattr(coeff, "__len__") else list(coeff)  # it is gone through more than once
        made._lay_out(modes, as_words(cre, "creation word {}"), as_words(ann, "annihilation word {}"), listed)
        return made

    @classmethod
    def from_ladders(cls, modes: Whole, terms: Products[Number]) -> FloatTerms:
        """The sum of products of ladders in any order, each with a float or complex coefficient; as `Record.from_ladders`.

        The library's product multiplies them out, with the signs. Like terms are added in the order given, and stand where the
        first of them does; zeros are dropped.

        >>> list(FloatTerms.from_ladders(2, {((0, 0), (0, 1)): 0.5, ((1, 1), (0, 1)): 2.0}))
        [(0, 0, 0.5), (1, 1, -0.5), (3, 0, -2.0)]
        """
        m = mode_count(modes)
        sums: Dict[Tuple[int, int], Number] = {}
        for cre, ann, count, coeff in multiplied_out(m, terms, _number):
            sums[cre, ann] = sums.get((cre, ann), 0.0) + count * coeff
        return cls(m, [(cre, ann, number) for (cre, ann), number in sums.items() if number != 0])

    @property
    def modes(self) -> int:
        """The mode count m."""
        return self._modes

    def element(self, bra: Whole, ket: Whole) -> Any:
        """The element between two occupation words, a float, or a complex number where a coefficient is one.

        Refusals: 12 for the bra, 12 for the ket, and 13 where a sum becomes infinite.

        >>> FloatTerms(2, [(word(1), 0, 0.5)]).element(word(0, 1), word(0))
        -0.5
        """
        if type(bra) is not int or type(ket) is not int or bra >> 64 or ket >> 64:
            bra, ket = as_word(bra, "the bra"), as_word(ket, "the ket")
        try:
            prepared = self._spare.pop()  # each thread that is here has one of its own
        except IndexError:
            prepared = self._prepared()
        call, words, value, answer = prepared
        words[0] = bra
        words[1] = ket
        call()
        if answer[0]:
            raise Refusal(*answer[:3])
        made = complex(value[0], value[1]) if self._complex else value[0]
        self._spare.append(prepared)
        return made

    def matrix(self, bras: Iterable[Whole], kets: Iterable[Whole]) -> List[List[Any]]:
        """The elements between words, a row for each bra and a column for each ket.

        Refusals: 12 for each bra in turn (operand 3), 12 for each ket (operand 4), the place being that in the list; then 13
        where a sum becomes infinite.

        >>> FloatTerms(2, [(word(1), word(0), 2.0)]).matrix([word(1)], [word(0), word(1)])
        [[2.0, 0.0]]
        """
        rows, columns = as_words(bras, "bra {}"), as_words(kets, "ket {}")
        for operand, words in ((3, rows), (4, columns)):
            for place, word in enumerate(words):
                if word >> self._modes:
                    raise Refusal(12, operand, place)
        element, kets_listed = self.element, list(columns)
        return [[element(bra, ket) for ket in kets_listed] for bra in rows]

    def __len__(self) -> int:
        return len(self._cre)

    def __iter__(self) -> Iterator[Tuple[int, int, Number]]:
        """The terms as they were laid out."""
        return zip(self._cre, self._ann, map(complex, *self._parts) if self._complex else self._parts[0])

    def __repr__(self) -> str:
        return f"FloatTerms({self._modes}, {list(self)})"

    def __reduce__(self) -> Tuple[object, ...]:
        return FloatTerms, (self._modes, list(self))

    def _lay_out(self, modes: Whole, cre: "array[int]", ann: "array[int]", coeff: Any) -> None:
        self._modes, self._cre, self._ann = mode_count(modes), cre, ann
        self._complex = has_complex(coeff)
        self._parts = as_parts(coeff, "coefficient {}") if self._complex else (as_floats(coeff, "coefficient {}"),)
        self._fixed = [_U64(self._modes)]
        columns: List["array[Any]"] = [cre, ann, *self._parts]
        for column in columns:
            start, length = place_of(column)
            self._fixed += [_POINTER(start), _SIZE(length)]
        self._function = bare("mat_elem_complex" if self._complex else "mat_elem_real")
        self._spare = []
        self._check()

    def _prepared(self) -> Prepared:
        """The call with all its arguments as ctypes passes them; only the two words change from call to call."""
        words, value, answer = array("Q", [0, 0]), array("d", [0, 0]), array("Q", [0] * 8)
        bra, ket = (ctypes.c_uint64.from_buffer(words, at) for at in (0, 8))
        lent = ctypes.byref(ctypes.c_double.from_buffer(value)), ctypes.byref(ctypes.c_uint64.from_buffer(answer))
        return partial(self._function, *self._fixed, bra, ket, *lent), words, value, answer

    def _check(self) -> None:
        """1, 2 and 13 of the list itself, by its element at 0, 0. A sum that is not finite there may never be asked for."""
        try:
            self.element(0, 0)
        except Refusal as refusal:
            if refusal.number != Reason.NOT_FINITE or not all(math.isfinite(part[refusal.place]) for part in self._parts):
                raise


# Arguments as ctypes passes them without looking at them again
_U64, _SIZE, _POINTER = ctypes.c_uint64.from_param, ctypes.c_size_t.from_param, ctypes.c_void_p.from_param


def _number(coeff: Any, what: str, place: int) -> Number:
    """A float or a complex number of what is one; text is neither."""
    return complex(coeff) if has_complex([coeff]) else as_float(coeff, what, place)
