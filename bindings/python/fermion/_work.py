"""What several calls have in common: the room for an output, and the memory that a product works in."""
from __future__ import annotations

from typing import Any, Callable, Optional, Tuple, TypeVar

from ._buffers import Readable, Writable, length_of
from ._face import call
from ._types import Reason, Refusal, Whole, whole

T = TypeVar("T")

MAX_MODES = 64
MAX_TERMS = 2048
MAX_WEIGHT = 2**60
MAX_BASIS = 8
HEADER = 32
ROW = 24
#: The length of a record with as many terms as there may be.
MAX_BYTES = HEADER + ROW * MAX_TERMS
#: The most bytes of work that a product is given by itself: more is the caller's word, as `ceiling` or as `work`.
WORK_CEILING = 1 << 24


def summed(name: str, a: Readable, b: Readable, out: Optional[Writable] = None) -> bytes:
    """The record of a sum or a difference."""
    room = room_for(out, length_of(a) + length_of(b))
    return front(room, call(name, a, b, room)[3])


def adjoined(a: Readable, out: Optional[Writable] = None) -> bytes:
    """The record of an adjoint."""
    room = room_for(out, length_of(a))
    return front(room, call("adjoint", a, room)[3])


def multiplied(name: str, a: Readable, b: Readable, work: Optional[Writable] = None, out: Optional[Writable] = None,
               ceiling: Whole = WORK_CEILING) -> Tuple[bytes, int]:
    """The record of a product, a commutator or an anticommutator, and its branches."""
    if work is not None:
        return _called(name, a, b, work, out)
    return with_rows(name, a, b, ceiling, lambda rows: _called(name, a, b, rows, out))


def _called(name: str, a: Readable, b: Readable, rows: Any, out: Optional[Writable]) -> Tuple[bytes, int]:
    room = room_for(out, HEADER + length_of(rows) // ROW * ROW)  # no more terms than rows
    answer = call(name, a, b, rows, room)
    return front(room, answer[3]), answer[4]


def with_rows(name: str, a: Readable, b: Readable, ceiling: Whole, attempt: Callable[[bytearray], T]) -> T:
    """A call with memory for exactly the rows that it has; with none at all where they are too many, so that it is refused.

    Both orders together may have more branches than can be counted, while a b alone has few: then it is tried with what nobody
    has to ask for, and with four times as much as long as 7 is given and the caller's ceiling allows it.
    """
    most = max(0, whole(ceiling, "the ceiling"))
    try:
        forward, backward = call("branches", a, b)[4:6]
    except Refusal as refusal:
        if refusal.number != Reason.ROWS_DO_NOT_FIT:
            raise
        return growing(WORK_CEILING, most, attempt) if name == "mul" else attempt(bytearray())
    needed = ROW * (forward if name == "mul" else forward + backward)
    return attempt(bytearray(needed if needed <= most else 0))


def growing(least: int, most: int, attempt: Callable[[bytearray], T]) -> T:
    """A call whose rows nobody has counted, with more and more memory, from `least` bytes on: as long as 7 is given."""
    length = min(most, least)
    while True:
        try:
            return attempt(bytearray(length))
        except Refusal as refusal:
            if refusal.number != Reason.ROWS_DO_NOT_FIT or length == most:
                raise
        length = min(4 * length, most)


def front(room: Any, length: int) -> bytes:
    return memoryview(room).cast("B")[:length].tobytes()


def room_for(out: Optional[Writable], needed: int, most: int = MAX_BYTES) -> Any:
    """The caller's output, or one of `needed` bytes: more than `most`, which the longest record has, is never needed."""
    return bytearray(min(needed, most)) if out is None else out
