"""The functions of the C face, one row each: its model, what it takes, and the test that meets every refusal of it.

A function more is one row here, its model in records.py, of ladder text in ladder_text.py, of the shelf in shelves.py, and its
draws in the test that the row names.

A call and a model have the same arguments, in the header's order: a number; bytes, or a list of words, that are only read;
the length of what is lent for writing; what memory that is read and changed holds before the call. An array that is only
written has no argument. The model's answer has the whole contents, after the call, of everything written or changed.
"""
import collections
import ctypes

import ladder_text
import records
import shelves


class Kind(collections.namedtuple("Kind", "role words entries", defaults=(False, None))):
    """An argument: a number, or memory that is read, written, or changed, which is read and written. Words have eight bytes
    and are aligned; else it is bytes, which begin anywhere. An array has so many entries; else the length is passed too."""

    @property
    def is_given(self):
        """Whether a call has an argument for it."""
        return self.role != "written" or self.entries is None

    @property
    def shape(self):
        """As header.py has it."""
        if self.role == "number":
            return "uint64_t"
        array = "" if self.entries is None else f"[{self.entries}]"
        return ("const " if self.role == "read" else "") + ("words" if self.words else "bytes") + array

    @property
    def passed(self):
        """The C types."""
        if self.role == "number":
            return [ctypes.c_uint64]
        return [ctypes.c_void_p] + [ctypes.c_size_t] * (self.entries is None)


NUMBER = Kind("number")
READ, READ_WORDS = Kind("read"), Kind("read", words=True)
WRITTEN, CHANGED = Kind("written"), Kind("changed")


def array_written(entries):
    return Kind("written", True, entries)


def array_changed(entries):
    return Kind("changed", True, entries)


ANSWER = array_written(8)  # what every function takes last, and no row names

Row = collections.namedtuple("Row", "model takes test")
FIGURE = (READ,)
SUM = READ, READ, WRITTEN
PRODUCT = READ, READ, WRITTEN, WRITTEN
LISTS = READ_WORDS, READ_WORDS, READ_WORDS
VALUE = NUMBER, NUMBER, array_written(2)

FACE = {
    "apply": Row(records.apply, (NUMBER,) * 3, "check_face.py"),
    "mul_cmpnts": Row(records.mul_cmpnts, (NUMBER,) * 4 + (WRITTEN,), "check_mul_cmpnts.py"),
    "check": Row(records.check, FIGURE, "check_records.py"),
    "add": Row(records.add, SUM, "check_records.py"),
    "sub": Row(records.sub, SUM, "check_records.py"),
    "branches": Row(records.branches, (READ, READ), "check_branches.py"),
    "mul": Row(records.mul, PRODUCT, "check_products.py"),
    "commutator": Row(records.commutator, PRODUCT, "check_products.py"),
    "anticommutator": Row(records.anticommutator, PRODUCT, "check_products.py"),
    "adjoint": Row(records.adjoint, (READ, WRITTEN), "check_records.py"),
    "is_hermitian": Row(records.is_hermitian, FIGURE, "check_records.py"),
    "conserves_particle_number": Row(records.conserves_particle_number, FIGURE, "check_records.py"),
    "max_n_body": Row(records.max_n_body, FIGURE, "check_records.py"),
    "active_modes": Row(records.active_modes, FIGURE, "check_records.py"),
    "report_add": Row(records.report_add, (READ, array_changed(201)), "check_report.py"),
    "import": Row(ladder_text.import_, (NUMBER, READ, WRITTEN, WRITTEN), "check_text.py"),
    "export": Row(ladder_text.export, (READ, WRITTEN), "check_text.py"),
    "shelf_clear": Row(shelves.clear, (CHANGED,), "check_shelf.py"),
    "shelf_put": Row(shelves.put, (CHANGED, NUMBER, READ), "check_shelf.py"),
    "shelf_get": Row(shelves.get, (READ, NUMBER, NUMBER, WRITTEN), "check_shelf.py"),
    "shelf_drop": Row(shelves.drop, (CHANGED, NUMBER, NUMBER), "check_shelf.py"),
    "block": Row(records.block, (READ, NUMBER), "check_records.py"),
    "element": Row(records.element, (READ, NUMBER, NUMBER), "check_elements.py"),
    "mat_ortho_projected": Row(records.mat_ortho_projected, (READ, READ_WORDS, array_written(64)), "check_elements.py"),
    "compare": Row(records.compare, (READ, READ), "check_elements.py"),
    "mat_elem_real": Row(records.mat_elem_real, (NUMBER, *LISTS, *VALUE), "check_float_elements.py"),
    "mat_elem_complex": Row(records.mat_elem_complex, (NUMBER, *LISTS, READ_WORDS, *VALUE), "check_float_elements.py"),
}


def faults(declared, rows):
    """Where the table and the functions that a header declares differ, in words."""
    found = [f"{name}: in the header or in the table, and not in both" for name in sorted(set(declared) ^ set(rows))]
    for name in sorted(set(declared) & set(rows)):
        shapes = [kind.shape for kind in rows[name].takes]
        if shapes != declared[name].shapes:
            found.append(f"{name}: the header has {declared[name].shapes}, the table {shapes}")
        if declared[name].numbers is None:
            found.append(f"{name}: the header does not say its refusals")
    return found
