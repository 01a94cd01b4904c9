"""Figures for a batch: a report, and how records are counted into it. include/fermion.h lists its numbers."""
from __future__ import annotations

import struct
from array import array
from threading import Lock
from typing import Iterable, Optional, Tuple

from ._buffers import Readable, Writable, as_words, copy_of
from ._face import REPORT, call
from ._types import Counted, Refusal, Share, Whole

MAX_REPORTED = 1024
#: Ranks, from 0 on, that terms on 64 modes may have.
RANKS = 65
_STORED = struct.Struct(f"<{REPORT}Q")


def counted(a: Readable, report: Writable) -> Counted:
    """One record counted into a report's numbers."""
    accepted, number, place = call("report_add", a, report)[5:]
    return Counted(True) if accepted else Counted(False, Refusal(number, 1, place))


class Report:
    """The figures of up to 1,024 records, counted one after the other. In which order does not matter.

    >>> report = Report()
    >>> report.add(Record.build(2, [(1, 1, 4), (2, 2, -6)])).accepted
    True
    >>> print(report.add(b"no record").refusal.reason.name)
    MALFORMED
    >>> report.accepted, report.refused, report.terms, report.weight, report.largest
    (1, 1, 2, 10, 10)
    >>> report.ranks[1]
    Share(terms=2, weight=10)
    >>> report
    Report(accepted=1, refused=1, terms=2, weight=10, largest=10, ranks={1: (2, 10)})

    It is stored as its numbers or as bytes. What is loaded isn't looked at before the next record is counted, which is refused
    with 15 where a number is above its limit.

    >>> Report(report.numbers) == Report.from_bytes(bytes(report)) == report
    True

    Several threads may count into one report, and read it meanwhile.
    """

    __slots__ = ("_numbers", "_lock")
    _numbers: "array[int]"

    def __init__(self, numbers: Optional[Iterable[Whole]] = None) -> None:
        made = array("Q", bytes(8 * REPORT)) if numbers is None else as_words(numbers, "number {} of the report")
        if len(made) != REPORT:
            raise ValueError(f"a report has {REPORT} numbers, not {len(made)}")
        self._numbers, self._lock = made, Lock()

    @classmethod
    def of(cls, records: Iterable[Readable]) -> Report:
        """The report over a batch. Refusal: 15 where it has more than 1,024 records.

        >>> print(Report.of([hopping(2, 0, 1), b"no record", 7 * interaction(2, 0, 1), bytes(number(2))]))
        3 records accepted, 1 refused
        5 terms of weight 11, the most in one record 7
        rank 1: 4 terms of weight 4
        rank 2: 1 term of weight 7
        """
        made = cls()
        for record in records:
            made.add(record)
        return made

    @classmethod
    def from_bytes(cls, data: Readable) -> Report:
        """The report that was stored as these 1,608 bytes."""
        stored = copy_of(data)
        if len(stored) != _STORED.size:
            raise ValueError(f"a report is stored as {_STORED.size} bytes, not {len(stored)}")
        return cls(_STORED.unpack(stored))

    def add(self, record: Readable) -> Counted:
        """Counts one record, or any other bytes.

        What is not a record raises nothing: it adds one to the refused, and the answer has its refusal, as `check` would raise
        it. Refusal: 15 for a 1,025th record, refused ones counted, and where a number of the report is above its limit; the
        report is then left as it was.

        >>> print(Report().add(bytes(32)).refusal.sentence[:10])
        the header
        """
        with self._lock:
            numbers = self._numbers[:]  # so that a thread that reads meanwhile finds all of a record or nothing
            answer = counted(record, numbers)
            self._numbers = numbers
        return answer

    @property
    def accepted(self) -> int:
        """How many records were accepted."""
        return self._numbers[0]

    @property
    def refused(self) -> int:
        """How many records were refused. They are in no other figure."""
        return self._numbers[1]

    @property
    def terms(self) -> int:
        """The terms of all records."""
        return _share(self._numbers, 2).terms

    @property
    def weight(self) -> int:
        """The weight of all records, exactly: it may reach 2^70."""
        return _share(self._numbers, 2).weight

    @property
    def largest(self) -> int:
        """The largest weight of one record."""
        return self._numbers[5]

    @property
    def ranks(self) -> Tuple[Share, ...]:
        """The terms of each rank and their weight: entry r, from 0 to 64, for rank r. The rank of a term is the larger of its
        creation and annihilation counts, as in `max_n_body`.

        >>> Report.of([hopping(2, 0, 1), 7 * interaction(2, 0, 1)]).ranks[:3]
        (Share(terms=0, weight=0), Share(terms=2, weight=2), Share(terms=1, weight=7))
        """
        numbers = self._numbers
        return tuple(_share(numbers, 6 + 3 * rank) for rank in range(RANKS))

    @property
    def numbers(self) -> Tuple[int, ...]:
        """The 201 numbers, in the order of include/fermion.h."""
        return tuple(self._numbers)

    def __bytes__(self) -> bytes:
        """The numbers, 8 bytes each, the lowest byte first."""
        return _STORED.pack(*self._numbers)

    def __eq__(self, other: object) -> bool:
        if not isinstance(other, Report):
            return NotImplemented
        return self._numbers == other._numbers

    def __reduce__(self) -> Tuple[object, ...]:
        return Report, (self.numbers,)

    def __str__(self) -> str:
        now = Report(self._numbers)  # one state, while others count
        lines = [f"{_many(now.accepted, 'record')} accepted, {now.refused} refused",
                 f"{_many(now.terms, 'term')} of weight {now.weight}, the most in one record {now.largest}"]
        lines += [f"rank {rank}: {_many(terms, 'term')} of weight {weight}" for rank, (terms, weight) in _held(now)]
        return "\n".join(lines)

    def __repr__(self) -> str:
        now = Report(self._numbers)
        ranks = {rank: tuple(share) for rank, share in _held(now)}
        return (f"Report(accepted={now.accepted}, refused={now.refused}, terms={now.terms}, weight={now.weight}, "
                f"largest={now.largest}, ranks={ranks})")


def _share(numbers: "array[int]", at: int) -> Share:
    """Terms, and the high and the low of their weight, from one place on."""
    terms, high, low = numbers[at:at + 3]
    return Share(terms, (high << 60) + low)


def _held(report: Report) -> Iterable[Tuple[int, Share]]:
    """The ranks that have terms, or a weight."""
    return ((rank, share) for rank, share in enumerate(report.ranks) if any(share))


def _many(count: int, what: str) -> str:
    return f"{count} {what}" if count == 1 else f"{count} {what}s"
