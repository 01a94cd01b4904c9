"""Exact elements and matrices of a record."""
from __future__ import annotations

from array import array
from itertools import combinations
from typing import Iterable, List

from ._buffers import Readable
from ._face import call
from ._types import Refusal
from ._work import MAX_BASIS


def signed(number: int) -> int:
    """The number that an answer holds as its two's complement."""
    return number - (number >> 63 << 64)


def projected(a: Readable, words: "array[int]") -> List[List[int]]:
    """The matrix between up to 8 words, in one call."""
    matrix = array("q", bytes(8 * MAX_BASIS**2))
    call("mat_ortho_projected", a, words, matrix.buffer_info()[0])
    return [list(matrix[MAX_BASIS * i:MAX_BASIS * i + len(words)]) for i in range(len(words))]


def tiled(a: Readable, modes: int, words: "array[int]") -> List[List[int]]:
    """The matrix between any number of words, tile by tile."""
    _look_at(words, modes)
    matrix = [[0] * len(words) for _ in words]
    for places in tiles(len(words)):
        tile = projected(a, array("Q", [words[i] for i in places]))
        for i, row in zip(places, tile):
            for j, entry in zip(places, row):
                matrix[i][j] = entry
    return matrix


def _look_at(basis: "array[int]", modes: int) -> None:
    """What `fermion_mat_ortho_projected` refuses in a basis but for its length: 12 in turn, then 14 for a repeat."""
    for place, word in enumerate(basis):
        if word >> modes:
            raise Refusal(12, 3, place)
    seen = set()
    for place, word in enumerate(basis):
        if word in seen:
            raise Refusal(14, 3, place)
        seen.add(word)


def tiles(length: int) -> Iterable[List[int]]:
    """Places in a basis, at most 8 at a time, so that every two stand together in some tile: halves of 4, each with each."""
    half = MAX_BASIS // 2
    parts = [list(range(start, min(start + half, length))) for start in range(0, length, half)]
    if len(parts) < 2:
        return parts
    return (first + second for first, second in combinations(parts, 2))
