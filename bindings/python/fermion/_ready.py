"""Operators that many begin with, ready made."""
from __future__ import annotations

from typing import Iterable, Union

from ._ladders import mode_count
from ._record import Record
from ._types import Whole, modes as modes_of, word


def number(modes: Whole, which: Union[Whole, Iterable[Whole], None] = None) -> Record:
    """The number of particles in the modes named, one or several, each counted once; in all modes where nothing is named.

    >>> print(number(3, [0, 2]))
    1 {0|0} + 1 {2|2}
    >>> print(number(3, 1), "and", number(2), "and", number(2, []))
    1 {1|1} and 1 {0|0} + 1 {1|1} and 0
    """
    named: Iterable[Whole] = range(mode_count(modes)) if which is None else which if isinstance(which, Iterable) else [which]
    return Record.from_ladders(modes, [(((p, 1), (p, 0)), 1) for p in modes_of(word(*named))])


def hopping(modes: Whole, p: Whole, q: Whole) -> Record:
    """A particle that hops from q to p and from p to q: a+p aq + a+q ap.

    >>> print(hopping(2, 0, 1))
    1 {1|0} + 1 {0|1}
    """
    return Record.from_ladders(modes, [(((p, 1), (q, 0)), 1), (((q, 1), (p, 0)), 1)])


def interaction(modes: Whole, p: Whole, q: Whole) -> Record:
    """Both modes occupied: the number of particles in p times that in q.

    >>> print(interaction(2, 0, 1))
    -1 {0,1|0,1}
    """
    return Record.ladders(modes, [(p, 1), (p, 0), (q, 1), (q, 0)])
