"""A shelf: memory in which two parties keep operators, each in a half of its own. docs/RECORD.md describes its bytes."""
from __future__ import annotations

from threading import Lock
from typing import Any, Optional, Tuple

from ._buffers import Readable, Writable, as_word, copy_of, lendable
from ._face import call
from ._types import Whole
from ._work import front, room_for

#: Bytes of a shelf.
SHELF = 65536
#: Bytes of the half that a party has of it. No record on a shelf is longer.
HALF = 32768
#: The most records that a party has on a shelf.
SLOTS = 16


def cleared(shelf: Writable) -> None:
    """Zeros in all of a shelf."""
    call("shelf_clear", shelf)


def put(shelf: Writable, party: Whole, a: Readable) -> int:
    """The slot that a record was put into."""
    return call("shelf_put", shelf, as_word(party, "the party"), a)[5]


def got(shelf: Readable, party: Whole, slot: Whole, out: Optional[Writable]) -> bytes:
    """A copy of what stands in a slot."""
    room = room_for(out, HALF)
    return front(room, call("shelf_get", shelf, *_named(party, slot), room)[3])


def dropped(shelf: Writable, party: Whole, slot: Whole) -> None:
    """Zeros in place of what stood in a slot."""
    call("shelf_drop", shelf, *_named(party, slot))


def _named(party: Whole, slot: Whole) -> Tuple[int, int]:
    return as_word(party, "the party"), as_word(slot, "the slot")


class Shelf:
    """Memory of 65,536 bytes in which two parties, 0 and 1, keep up to 16 operators each.

    >>> shelf = Shelf()
    >>> hop = shelf.put(0, hopping(2, 0, 1))
    >>> hop, shelf.put(0, number(2)), shelf.put(1, number(2))  # a slot is the party's own
    (0, 1, 0)
    >>> print(Record(shelf.get(0, hop)))
    1 {1|0} + 1 {0|1}
    >>> shelf.drop(0, hop)
    >>> shelf.get(0, hop)
    Traceback (most recent call last):
    fermion.Refusal: refused 22 (operand 0, place 0): the slot is empty or unknown

    The two halves never touch: what one party puts, gets and drops, or is refused, changes no slot, no byte and no refusal of
    the other's. A number is all that tells the parties apart, so it is the worker that says which party a call is for, and
    never a tenant. `clear` is neither party's.

    Without an argument the shelf has memory of its own, all zero. A shelf on memory of the caller's, any writable buffer, takes
    it as it stands: nothing is copied or cleared, and every call changes it in place. Nothing is asked of its length or of its
    bytes before a call, which refuses with 19 what is not a shelf.

    >>> memory = bytearray(SHELF)
    >>> Shelf(memory).put(1, number(2))
    0
    >>> bytes(number(2)) == memory[HALF + 512:HALF + 512 + 80]
    True

    Several threads may use one Shelf. Two Shelf objects on the same memory do not know of each other: then it is the caller's
    to see to that no two calls run at once.
    """

    __slots__ = ("_memory", "_lock")
    _memory: Any

    def __init__(self, memory: Optional[Writable] = None) -> None:
        self._memory, self._lock = bytearray(SHELF) if memory is None else lendable(memory), Lock()

    def put(self, party: Whole, record: Readable) -> int:
        """Keeps a record, or any other bytes that are one, for a party, and tells the slot: the party's lowest free one.

        The record is copied to the start of the lowest gap of the party's half that is long enough. Refusals: 18 for a party
        that is not 0 or 1; 19 where its half is damaged; 1 to 5 for what is not a record; 20 where all 16 slots are used; 21
        where no gap is long enough. The shelf is then left as it was.

        >>> shelf = Shelf()
        >>> [shelf.put(0, number(4)) for _ in range(16)][-1]
        15
        >>> shelf.put(0, number(4))
        Traceback (most recent call last):
        fermion.Refusal: refused 20 (operand 0, place 0): the party has no free slot
        """
        with self._lock:
            return put(self._memory, party, record)

    def get(self, party: Whole, slot: Whole, *, out: Optional[Writable] = None) -> bytes:
        """A copy of what stands in a party's slot. It stays there.

        A record was looked at when it was put, and is not looked at again: memory of the caller's may hold anything. So these are
        bytes, and `Record(..)` makes a record of them, if they are one. Refusals: 18, 19; 22 for a slot that is empty or not
        below 16; and 11 for an `out` that is lent. It holds the copy and zeros past it, and all zeros after a refusal.

        >>> shelf, out = Shelf(), bytearray(b"?" * 90)
        >>> slot = shelf.put(1, number(2))
        >>> shelf.get(1, slot, out=out) == bytes(number(2)) == out[:80], bytes(out[80:]) == bytes(10)
        (True, True)
        """
        with self._lock:
            return got(self._memory, party, slot, out)

    def drop(self, party: Whole, slot: Whole) -> None:
        """Takes a record off the shelf: zeros stand in its place, and slot and room are free. Refusals: 18, 19, 22; the shelf
        is then left as it was.

        >>> shelf = Shelf()
        >>> shelf.drop(0, shelf.put(0, number(2)))
        >>> bytes(shelf) == bytes(SHELF)
        True
        """
        with self._lock:
            dropped(self._memory, party, slot)

    def clear(self) -> None:
        """Zeros in all of the memory, whatever its length: both parties' records are gone. Never refused."""
        with self._lock:
            cleared(self._memory)

    def __bytes__(self) -> bytes:
        """All bytes, of both halves, to be stored. `Shelf(bytearray(stored))` goes on with them."""
        with self._lock:
            return copy_of(self._memory)
