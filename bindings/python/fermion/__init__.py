"""Exact fermion operators on up to 64 modes: the proved library `fermion`, for Python.

A term is a creation word, an annihilation word and a whole number; a word has bit i set for mode i. An operator is a Record:
bytes that the library has accepted. Every function that takes a record takes any other bytes too, and raises Refusal where
it cannot do what it was asked.

>>> hop = Record.ladders(2, [(0, 1), (1, 0)])  # a particle goes from mode 1 to mode 0
>>> print(commutator(hop, adjoint(hop)).record)
1 {0|0} - 1 {1|1}
>>> print(hop * hop.adjoint() - hop.adjoint() * hop)
1 {0|0} - 1 {1|1}
"""
from ._buffers import Readable, Writable
from ._calls import (
    active_modes, add, adjoint, anticommutator, apply, block, branches, check, commutator, compare,
    conserves_particle_number, element, export, import_, is_hermitian, mat_elem_complex, mat_elem_real, mat_ortho_projected,
    max_n_body, mul, mul_cmpnts, report_add, shelf_clear, shelf_drop, shelf_get, shelf_put, sub,
)
from ._face import __version__, load
from ._float import FloatTerms
from ._ready import hopping, interaction, number
from ._record import Product, Record
from ._report import MAX_REPORTED, Report
from ._shelf import HALF, SHELF, SLOTS, Shelf
from ._text import MAX_LADDERS, MAX_TEXT
from ._types import (
    SENTENCES, Applied, Blocked, Branches, Checked, Columns, Comparison, Counted, Reason, Refusal, Share, Term, Zero, modes, word,
)
from ._work import MAX_BASIS, MAX_BYTES, MAX_MODES, MAX_TERMS, MAX_WEIGHT, WORK_CEILING

__all__ = [
    "Applied", "Blocked", "Branches", "Checked", "Columns", "Comparison", "Counted", "FloatTerms", "HALF", "MAX_BASIS",
    "MAX_BYTES", "MAX_LADDERS", "MAX_MODES", "MAX_REPORTED", "MAX_TERMS", "MAX_TEXT", "MAX_WEIGHT", "Product", "Readable",
    "Reason", "Record", "Refusal", "Report", "SENTENCES", "SHELF", "SLOTS", "Share", "Shelf", "Term", "WORK_CEILING",
    "Writable", "Zero", "__version__", "active_modes", "add", "adjoint", "anticommutator", "apply", "block", "branches",
    "check", "commutator", "compare", "conserves_particle_number", "element", "export", "hopping", "import_", "interaction",
    "is_hermitian", "load", "mat_elem_complex", "mat_elem_real", "mat_ortho_projected", "max_n_body", "modes", "mul",
    "mul_cmpnts", "number", "report_add", "shelf_clear", "shelf_drop", "shelf_get", "shelf_put", "sub", "word",
]

# Messages and pickles name the package, not the file in which a class stands.
for _class in (Applied, Blocked, Branches, Checked, Columns, Comparison, Counted, FloatTerms, Product, Reason, Record, Refusal,
               Report, Share, Shelf, Term, Zero):
    _class.__module__ = __name__
