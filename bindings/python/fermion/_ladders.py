"""Products of ladder operators in any order, multiplied out by the library's product of two terms."""
from __future__ import annotations

import ctypes
import struct
from typing import Any, Callable, Dict, Iterable, Iterator, List, Mapping, Tuple, TypeVar, Union

from ._face import function
from ._types import Refusal, Whole, parts, whole
from ._work import MAX_MODES, MAX_TERMS, ROW

T = TypeVar("T")
#: A product of ladders, leftmost first: (mode, 1) for a creation and (mode, 0) for an annihilation.
Ladders = Iterable[Tuple[Whole, Whole]]
#: A sum of such, each with its coefficient: pairs, or a mapping as OpenFermion writes it.
Products = Union[Mapping[Any, T], Iterable[Tuple[Ladders, T]]]
#: A sum of terms: (creation word, annihilation word) and the coefficient.
Sum = Dict[Tuple[int, int], int]

#: Rows of a product of two terms: annihilation word, creation word, 1 or -1.
Rows = List[Tuple[int, int, int]]

LADDER = ("mode", "1 to create or 0 to annihilate")
MOST_ROWS = 2  # of a term times one ladder
MOST_KNOWN = 1 << 16


class Multiplier:
    """Multiplies ladders out. What a term gives with a ladder is asked for once and kept."""

    def __init__(self, modes: int) -> None:
        self.modes = modes
        self._call = function("mul_cmpnts")
        self._rows = ctypes.create_string_buffer(ROW * MOST_ROWS)
        self._answer = (ctypes.c_uint64 * 8)()
        self._known: Dict[Tuple[int, int, int, int], Rows] = {}

    def product(self, ladders: Ladders, place: int) -> Sum:
        """The sum of terms that a product of ladders is. Refusals: 2 for a mode outside, its place being that of the
        product; 10 where the ladders multiplied so far, from left to right, have more than 2,048 terms."""
        total: Sum = {(0, 0): 1}
        for cre, ann in self._words(ladders, place):
            total = self._times(total, cre, ann)
            if len(total) > MAX_TERMS:
                raise Refusal(10, 0, 0)
        return total

    def _words(self, ladders: Ladders, place: int) -> Iterator[Tuple[int, int]]:
        """Each ladder as a term's two words."""
        for at, ladder in enumerate(ladders):
            mode, action = parts(ladder, LADDER, "product {}, ladder {}", place, at)
            mode = whole(mode, "product {}, ladder {}: the mode", place, at)
            action = whole(action, "product {}, ladder {}: the action", place, at)
            if action not in (0, 1):
                raise ValueError(f"product {place}, ladder {at}: the action is {action}, not 1 (creation) or 0 (annihilation)")
            if not 0 <= mode < self.modes:
                raise Refusal(2, 1, place)
            yield (1 << mode, 0) if action else (0, 1 << mode)

    def _times(self, terms: Sum, cre: int, ann: int) -> Sum:
        total: Sum = {}
        for (left_cre, left_ann), coeff in terms.items():
            for row_ann, row_cre, sign in self._rows_of((left_cre, left_ann, cre, ann)):
                total[row_cre, row_ann] = total.get((row_cre, row_ann), 0) + sign * coeff
        return {words: coeff for words, coeff in total.items() if coeff}

    def _rows_of(self, words: Tuple[int, int, int, int]) -> Rows:
        """The rows of a term times a ladder."""
        rows = self._known.get(words)
        if rows is None:
            self._call(*words, self._rows, ROW * MOST_ROWS, self._answer)
            if self._answer[0]:
                raise Refusal(*self._answer[:3])
            rows = [(ann, cre, sign) for ann, cre, sign in struct.iter_unpack("<QQq", self._rows.raw[:self._answer[3]])]
            if len(self._known) >= MOST_KNOWN:
                self._known.clear()
            self._known[words] = rows
        return rows


def mode_count(modes: Whole) -> int:
    """The mode count of a record or a list. Refusal: 1."""
    count = whole(modes, "the mode count")
    if not 1 <= count <= MAX_MODES:
        raise Refusal(1, 1, 0)
    return count


def multiplied_out(modes: int, products: Products[Any], number: Callable[[Any, str, int], T]
                   ) -> Iterator[Tuple[int, int, int, T]]:
    """The terms of each product in turn: creation word, annihilation word, whole number, and the product's coefficient, of
    which `number` makes one or raises a TypeError that names it."""
    multiplier = Multiplier(modes)
    pairs = products.items() if isinstance(products, Mapping) else products
    for place, pair in enumerate(pairs):
        ladders, given = parts(pair, ("ladders", "coefficient"), "product {}", place)
        coeff = number(given, "product {}: the coefficient", place)
        for (cre, ann), count in multiplier.product(ladders, place).items():
            yield cre, ann, count, coeff
