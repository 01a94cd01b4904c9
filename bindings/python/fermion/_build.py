"""A record's bytes from terms in any order."""
from __future__ import annotations

import struct
from typing import Dict, Iterable, List, Tuple

from ._buffers import as_word
from ._types import TERM, Refusal, Term, Whole, parts, whole
from ._work import HEADER, MAX_TERMS, MAX_WEIGHT, ROW


def built(modes: int, terms: Iterable[Tuple[Whole, Whole, Whole]]) -> bytes:
    """The record of a sum of terms. Refusals: for each term in turn 2; then 10 and 9."""
    joined = _joined(modes, terms)
    if len(joined) > MAX_TERMS:
        raise Refusal(10, 0, 0)
    if sum(abs(term.coeff) for term in joined) > MAX_WEIGHT:
        raise Refusal(9, 0, 0)
    return _encode(modes, joined)


def _joined(modes: int, terms: Iterable[Tuple[Whole, Whole, Whole]]) -> List[Term]:
    """The terms ascending by (annihilation, creation), each pair of words once, without zeros."""
    sums: Dict[Tuple[int, int], int] = {}
    for place, term in enumerate(terms):
        cre, ann, coeff = parts(term, TERM, "term {}", place)
        cre = as_word(cre, "term {}: the creation word", place)
        ann = as_word(ann, "term {}: the annihilation word", place)
        coeff = whole(coeff, "term {}: the coefficient", place)
        if cre >> modes or ann >> modes:
            raise Refusal(2, 1, place)
        sums[ann, cre] = sums.get((ann, cre), 0) + coeff
    return [Term(cre, ann, coeff) for (ann, cre), coeff in sorted(sums.items()) if coeff]


def _encode(modes: int, terms: List[Term]) -> bytes:
    n = len(terms)
    header = struct.pack("<8I", 1, modes, n, HEADER, HEADER + 8 * n, HEADER + 16 * n, HEADER + ROW * n, 0)
    words = struct.pack(f"<{2 * n}Q", *(term.ann for term in terms), *(term.cre for term in terms))
    return header + words + struct.pack(f"<{n}q", *(term.coeff for term in terms))
