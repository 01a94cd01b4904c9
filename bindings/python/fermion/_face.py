"""The shared object: where it is found, and calls of it with words, bytes and lists.

A caller's memory is looked at here, because nothing behind include/fermion.h can: memory that is lent for writing must not be
lent twice, nor be read in the same call.
"""
from __future__ import annotations

import ctypes
import os
from pathlib import Path
from typing import Any, Dict, List, Sequence, Union

from ._buffers import Held, place_of
from ._types import Refusal

__version__ = "0.1.0"
FOLDER = Path(__file__).resolve().parent
FILE = "libfermion.so"

# What each function takes before its answer. u: a word; r: bytes to read; w: words to read; d: floats to read; o: memory
# lent for writing, with its length, a shelf among it; f: an array of a fixed length for values; c: a report's numbers, which
# are changed.
SHAPES = {
    "apply": "uuu", "mul_cmpnts": "uuuuo", "check": "r", "add": "rro", "sub": "rro", "mul": "rroo", "commutator": "rroo",
    "anticommutator": "rroo", "adjoint": "ro", "is_hermitian": "r", "conserves_particle_number": "r", "max_n_body": "r",
    "active_modes": "r", "block": "ru", "element": "ruu", "mat_ortho_projected": "rwf", "compare": "rr", "branches": "rr",
    "report_add": "rc", "import": "uroo", "export": "ro", "shelf_clear": "o", "shelf_put": "our", "shelf_get": "ruuo",
    "shelf_drop": "ouu", "mat_elem_real": "uwwduuf", "mat_elem_complex": "uwwdduuf",
}

#: How many numbers a report has.
REPORT = 201

_Answer = ctypes.c_uint64 * 8
_libraries: List[ctypes.CDLL] = []  # the last is in use
_functions: Dict[str, Any] = {}


def load(path: Union[str, "os.PathLike[str]", None] = None) -> None:
    """Loads the library: the file given, else the one that FERMION_LIB names, else libfermion.so beside the package's
    modules, else target/native/libfermion.so of the repository.

    The first call of any function does this by itself. Calling it again with another path replaces the library.
    """
    file = _found(path)
    library = ctypes.CDLL(str(file))
    functions = {}
    for name, kinds in SHAPES.items():
        try:
            function = getattr(library, f"fermion_{name}")
        except AttributeError:
            raise ImportError(f"{file} has no function fermion_{name}: it is not the library of version {__version__} that "
                              f"this package calls; build or install that one, or name it in FERMION_LIB") from None
        function.restype = None
        function.argtypes = [kind for letter in kinds for kind in _ctypes_of(letter)] + [ctypes.c_void_p]
        functions[name] = function
    _libraries.append(library)
    _functions.update(functions)


def _found(path: Union[str, "os.PathLike[str]", None]) -> Path:
    named = path or os.environ.get("FERMION_LIB")
    places = [Path(named)] if named else _places(FOLDER)
    for file in places:
        if file.exists():
            return file.resolve()
    raise FileNotFoundError(
        f"the library is not there ({', '.join(map(str, places))}): build it with tools/shared_object.sh of the repository, "
        f"or name its file in the environment variable FERMION_LIB or by fermion.load(path)")


def _places(folder: Path) -> List[Path]:
    """Where the library is looked for if nobody names it: beside the package, and in the repository that the package's
    folder, bindings/python/fermion, lies in, if it lies that deep."""
    above = list(folder.parents)
    return [folder / FILE] + [root / "target" / "native" / FILE for root in above[2:3]]


def _ctypes_of(letter: str) -> List[Any]:
    if letter == "u":
        return [ctypes.c_uint64]
    return [ctypes.c_void_p] if letter in "fc" else [ctypes.c_void_p, ctypes.c_size_t]


def function(name: str) -> Any:
    """A function of the library."""
    if not _functions:
        load()
    return _functions[name]


def bare(name: str) -> Any:
    """The same without the types of its arguments, for arguments that are ctypes' own already."""
    if not _libraries:
        load()
    made = _libraries[-1][f"fermion_{name}"]
    made.restype = None
    return made


def call(name: str, *args: Any) -> List[int]:
    """The eight numbers of an answer, or the Refusal raised."""
    called, held, answer = function(name), Held(), _Answer()
    passed: List[Any] = []
    try:
        for letter, arg in zip(SHAPES[name], args):
            passed += _passed(letter, arg, held)
        held.keep_apart()
        called(*passed, answer)
    finally:
        held.release()
    if answer[0]:
        raise Refusal(*answer[:3])
    return list(answer)


def _passed(letter: str, arg: Any, held: Held) -> Sequence[Any]:
    if letter in "uf":
        return (arg,)
    if letter in "wd":
        return place_of(arg)
    if letter == "c":
        return (held.change(arg, REPORT),)
    return held.write(arg) if letter == "o" else held.read(arg)
