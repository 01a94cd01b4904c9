"""Ladder text: an operator as lines, in and out. docs/RECORD.md has the grammar; only the library reads it."""
from __future__ import annotations

from typing import Any, Optional, Union

from ._buffers import Readable, Writable, bytes_of, length_of, view_of
from ._face import call
from ._types import Whole, whole
from ._work import HEADER, ROW, front, growing, room_for

#: The most ladders that a line may have.
MAX_LADDERS = 12
#: Bytes of text: no record is written as more.
MAX_TEXT = 1 << 20

PART = 48  # bytes of work for each part of a line, of which it has 2 to the number of its ladders
USUAL = 4  # ladders of a line, as those of two-body terms are
LONGEST = 513  # bytes of a line: a minus, 19 digits, both words with all 64 modes, and a line feed


def imported(m: int, text: Union[str, Readable], work: Optional[Writable], out: Optional[Writable], ceiling: Whole) -> bytes:
    """The record of a text. How much work it needs the library alone can tell: where none is lent, it is tried with as much as
    lines of 4 ladders need, and while that is too little with four times as much, up to the ceiling."""
    data: Any = text.encode("utf-8", "surrogatepass") if isinstance(text, str) else bytes_of(text)
    if work is not None:
        return _imported(m, data, work, out)
    least = (PART << USUAL) * max(1, _lines(data))
    return growing(least, max(0, whole(ceiling, "the ceiling")), lambda lent: _imported(m, data, lent, out))


def _imported(m: int, data: Any, work: Any, out: Optional[Writable]) -> bytes:
    room = room_for(out, HEADER + length_of(work) // PART * ROW)  # no more terms than parts
    return front(room, call("import", m, data, work, room)[3])


def _lines(data: Any) -> int:
    """How many line feeds there are."""
    if isinstance(data, (bytes, bytearray)):
        return data.count(b"\n")
    with view_of(data) as view:
        return sum(view[at:at + (1 << 16)].tobytes().count(b"\n") for at in range(0, len(view), 1 << 16))


def exported(a: Readable, out: Optional[Writable] = None) -> str:
    """The text of a record."""
    room = room_for(out, length_of(a) // ROW * LONGEST, MAX_TEXT)
    return front(room, call("export", a, room)[3]).decode("ascii")
