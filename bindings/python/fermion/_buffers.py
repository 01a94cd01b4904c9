"""Memory that callers hand over to be read, or lend to be written: where it stands, never a copy.

Nobody else may change it during a call: the library checks what it is handed, and then relies on it. That is the caller's to see
to, as in C.

Python's buffer protocol tells where the bytes of an object are. ctypes has it for memory that can be written; for memory that
can only be read, such as a file mapped read-only, two functions of Python's C interface are called here.
"""
from __future__ import annotations

import ctypes
import operator
from array import array
from numbers import Complex, Real
from typing import TYPE_CHECKING, Any, Iterable, List, Optional, Sequence, Tuple, Union

from ._types import Whole, whole

if TYPE_CHECKING:
    from typing import Protocol

    from _typeshed import ReadableBuffer, WriteableBuffer

    class Accepted(Protocol):
        """A Record, or an answer with one."""

        @property
        def _accepted(self) -> bytes: ...

    class Exposed(Protocol):
        """A NumPy array, which older type checkers do not know to have a buffer."""

        @property
        def __array_interface__(self) -> Any: ...

    Readable = Union[Accepted, ReadableBuffer, Exposed]
    Writable = Union[WriteableBuffer, Exposed]
else:
    #: What a record may be handed over as: a Record, an answer with one, or any object with the buffer protocol.
    Readable = Any
    #: Memory that can be lent for writing: any object with a writable buffer, such as a bytearray or an mmap.
    Writable = Any


class _PyBuffer(ctypes.Structure):
    """Py_buffer of Python's C interface."""

    _fields_ = [
        ("address", ctypes.c_void_p), ("owner", ctypes.c_void_p), ("length", ctypes.c_ssize_t),
        ("itemsize", ctypes.c_ssize_t), ("readonly", ctypes.c_int), ("ndim", ctypes.c_int), ("format", ctypes.c_void_p),
        ("shape", ctypes.c_void_p), ("strides", ctypes.c_void_p), ("suboffsets", ctypes.c_void_p),
        ("internal", ctypes.c_void_p),
    ]


# Prototypes of our own: to set the types of ctypes.pythonapi's would set them for everyone.
_get = ctypes.PYFUNCTYPE(ctypes.c_int, ctypes.py_object, ctypes.POINTER(_PyBuffer), ctypes.c_int)(
    ("PyObject_GetBuffer", ctypes.pythonapi))
_release = ctypes.PYFUNCTYPE(None, ctypes.POINTER(_PyBuffer))(("PyBuffer_Release", ctypes.pythonapi))
_BYTES, _WRITABLE = 0, 1  # PyBUF_SIMPLE: one stretch of bytes; PyBUF_WRITABLE: one that can be written

#: What memory for numbers of 64 bits without a sign may be divided into, by Python's `struct`: these numbers, or bytes. One for
#: floats would be filled with what is no float.
_NUMBERS = ("Q", "L", "B", "b", "c")

#: Where an empty stretch is said to begin: a null pointer is never passed.
_NOWHERE = ctypes.c_uint64()


class Held:
    """The buffers of one call, held from `read` and `write` to `release`."""

    def __init__(self) -> None:
        self._views: List[_PyBuffer] = []
        self._read: List[Tuple[int, int]] = []
        self._written: List[Tuple[int, int]] = []

    def read(self, data: Readable) -> Tuple[Any, int]:
        """Where the bytes begin, and how many there are."""
        data = bytes_of(data)
        if isinstance(data, bytes):  # ctypes passes these where they stand, and nothing lent for writing can overlap them
            return data, len(data)
        stretch = self._view(data, _BYTES)
        self._read.append(stretch)
        return stretch

    def write(self, memory: Any) -> Tuple[int, int]:
        """The same for memory that is lent for writing."""
        stretch = self._view(memory, _WRITABLE)
        self._written.append(stretch)
        return stretch

    def change(self, memory: Any, count: int) -> int:
        """Where so many numbers of 64 bits begin, in memory that is read and written in the same call."""
        with memoryview(memory) as view:
            kind = view.format
        if kind.lstrip("@=<") not in _NUMBERS:
            raise TypeError(f"{type(memory).__name__}: its items are {kind!r}, not numbers of 64 bits without a sign")
        start, length = self.write(memory)
        if length != 8 * count:
            raise ValueError(f"memory for {count} numbers of 64 bits has {8 * count} bytes, not {length}")
        if start % 8:
            raise ValueError("memory for numbers of 64 bits begins at an address that 8 divides")
        return start

    def keep_apart(self) -> None:
        """What is lent for writing overlaps nothing else of the call."""
        for place, lent in enumerate(self._written):
            if any(_overlap(lent, other) for other in self._written[:place] + self._read):
                raise ValueError("memory lent for writing overlaps other memory of the same call")

    def release(self) -> None:
        while self._views:
            _release(self._views.pop())

    def _view(self, memory: Any, flags: int) -> Tuple[int, int]:
        view = _PyBuffer()
        try:
            _get(memory, view, flags)
        except (BufferError, ValueError) as error:  # not one stretch, or not to be written: NumPy says it by a ValueError
            raise TypeError(f"{type(memory).__name__}: {error}") from None
        self._views.append(view)
        return (view.address, view.length) if view.length else (ctypes.addressof(_NOWHERE), 0)


def _overlap(first: Tuple[int, int], second: Tuple[int, int]) -> bool:
    return max(first[0], second[0]) < min(sum(first), sum(second))


def lendable(memory: Writable) -> Any:
    """The memory itself, if it can be lent for writing; else the TypeError that a call with it would raise."""
    held = Held()
    try:
        held.write(memory)
    finally:
        held.release()
    return memory


def bytes_of(data: Readable) -> Any:
    """A record's own bytes; anything else as it is."""
    return getattr(data, "_accepted", data)


def view_of(data: Readable) -> memoryview:
    """The bytes that were handed over, where they stand."""
    return memoryview(bytes_of(data)).cast("B")


def length_of(data: Readable) -> int:
    """How many bytes were handed over."""
    with memoryview(bytes_of(data)) as view:
        return view.nbytes


def copy_of(data: Readable) -> bytes:
    """Bytes that do not change. Only what is not `bytes` already is copied."""
    held = bytes_of(data)
    return held if isinstance(held, bytes) else memoryview(held).tobytes()  # bytes(5) would be five zeros: a TypeError here


# Numbers


def place_of(numbers: "array[Any]") -> Tuple[int, int]:
    """Where a list begins, and how many numbers it has. It is the caller's to keep the list."""
    start, length = numbers.buffer_info()
    return (start, length) if length else (ctypes.addressof(_NOWHERE), 0)


def as_word(number: Whole, what: str, *places: int) -> int:
    """The number, if it is one of 64 bits: ctypes would cut a larger one."""
    made = whole(number, what, *places)
    if not 0 <= made < 1 << 64:
        raise ValueError(f"{what.format(*places)} is {made}, not a number of 64 bits without a sign")
    return made


def as_words(numbers: Iterable[Whole], what: str) -> "array[int]":
    """Words in one stretch; `what` names one by its place. A list of 64-bit numbers without a sign, such as a NumPy array, is
    copied whole."""
    made, stretch = array("Q"), _stretch(numbers, "QL")
    if stretch is not None:
        made.frombytes(stretch)
        return made
    listed = list(numbers)
    try:
        made.extend(map(operator.index, listed))
    except (TypeError, OverflowError):
        for place, number in enumerate(listed):
            as_word(number, what, place)
        raise
    return made


def as_float(number: Any, what: str, place: int) -> float:
    """The number, if it is a real one: `float` would read text too."""
    try:
        if not has_complex([number]):
            made: "array[float]" = array("d", [number])
            return made[0]
    except OverflowError:
        raise OverflowError(f"{what.format(place)} is too large for a float") from None
    except TypeError:
        pass
    raise TypeError(f"{what.format(place)} is {number!r}, not a real number")


def has_complex(numbers: Iterable[Any]) -> bool:
    """Whether one is a complex number by its type: of NumPy's a float would take the real part, and say nothing."""
    return any(issubclass(kind, Complex) and not issubclass(kind, Real) for kind in set(map(type, numbers)))


def as_floats(numbers: Iterable[float], what: str) -> "array[float]":
    """Floats in one stretch. A list of binary64s, such as a NumPy array, is copied whole."""
    made, stretch = array("d"), _stretch(numbers, "d")
    if stretch is not None:
        made.frombytes(stretch)
        return made
    listed = list(numbers)
    try:
        if has_complex(listed):
            raise TypeError("a complex number")
        made.extend(listed)
    except (TypeError, OverflowError):
        for place, number in enumerate(listed):
            as_float(number, what, place)
        raise
    return made


def as_parts(numbers: Iterable[complex], what: str) -> "Tuple[array[float], array[float]]":
    """Real parts and imaginary parts, each in one stretch."""
    stretch = _stretch(numbers, ("Zd",))
    if stretch is not None:
        both = array("d")
        both.frombytes(stretch)
        return both[::2], both[1::2]
    listed = list(numbers)
    for place, number in enumerate(listed):
        if not (hasattr(number, "real") and hasattr(number, "imag")):
            raise TypeError(f"{what.format(place)} is {number!r}, not a complex number")
    return as_floats([number.real for number in listed], what), as_floats([number.imag for number in listed], what)


def _stretch(numbers: Any, formats: Sequence[str]) -> Optional[bytes]:
    """The bytes of a list in one of these formats of Python's `struct`, or None."""
    try:
        view = memoryview(numbers)
    except TypeError:
        return None
    with view:
        return view.tobytes() if view.ndim == 1 and view.format.lstrip("@=<") in formats else None
