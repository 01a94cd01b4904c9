"""What several test files need."""
import importlib.util
import unittest

from fermion import Record, Refusal, Term, word

EXAMPLE = bytes.fromhex("""
    01000000 02000000 02000000 20000000 30000000 40000000 50000000 00000000
    0100000000000000 0200000000000000 0100000000000000 0200000000000000
    0100000000000000 FFFFFFFFFFFFFFFF""")
ROW = 24

needs_numpy = unittest.skipUnless(importlib.util.find_spec("numpy"), "NumPy is not there")


def term(cre, ann, coeff=1):
    return Term(word(*cre), word(*ann), coeff)


def one(m, cre, ann, coeff=1):
    return Record.build(m, [term(cre, ann, coeff)])


def branching(count):
    """Two records of one term each, whose product has that many modes that branch."""
    full = (1 << count) - 1
    return Record.build(count, [(0, full, 1)]), Record.build(count, [(full, 0, 1)])


def rank(cre, ann):
    """The rank of a term: the larger of its creation and annihilation counts."""
    return max(bin(cre).count("1"), bin(ann).count("1"))


def figures(batch):
    """The 201 numbers of the report over a batch, which has a record's terms, and None for one that is refused."""
    accepted = [list(terms) for terms in batch if terms is not None]
    every = [term for terms in accepted for term in terms]
    by_rank = [[] for _ in range(65)]
    for cre, ann, coeff in every:
        by_rank[rank(cre, ann)].append((cre, ann, coeff))
    numbers = [len(accepted), len(batch) - len(accepted), *_share(every), max(map(_weight, accepted), default=0)]
    return numbers + [number for terms in by_rank for number in _share(terms)]


def _weight(terms):
    return sum(abs(coeff) for _, _, coeff in terms)


def _share(terms):
    return len(terms), _weight(terms) // 2**60, _weight(terms) % 2**60


class Refused:
    """Expects a refusal with these three numbers."""

    def __init__(self, test, *numbers):
        self.test, self.numbers = test, numbers

    def __enter__(self):
        return self

    def __exit__(self, kind, value, _):
        self.test.assertIsInstance(value, Refusal, "not refused")
        self.test.assertEqual((value.number, value.operand, value.place), self.numbers)
        return True


class Int64:
    """A number as NumPy's int64 is: whole, and its arithmetic wraps at 64 bits without a word."""

    def __init__(self, value):
        self.value = (value + 2**63) % 2**64 - 2**63

    def __index__(self):
        return self.value

    def __eq__(self, other):
        return self.value == int(other)

    def __hash__(self):
        return hash(self.value)

    def __bool__(self):
        return self.value != 0

    def __repr__(self):
        return f"Int64({self.value})"

    __int__ = __index__


def told(answer):
    """The record of a product's answer, as a record alone, and its branches."""
    return answer.record, answer.branches


def _wrapping(name):
    def method(self, *others):
        if not all(hasattr(other, "__index__") for other in others):
            return NotImplemented
        given = getattr(int, name)(self.value, *map(int, others))
        return given if isinstance(given, bool) else Int64(given)
    return method


for _name in ("add", "sub", "mul", "lshift", "rshift", "or", "and", "xor"):
    for _side in ("", "r"):
        setattr(Int64, f"__{_side}{_name}__", _wrapping(f"__{_side}{_name}__"))
for _name in ("lt", "le", "gt", "ge", "neg", "abs"):
    setattr(Int64, f"__{_name}__", _wrapping(f"__{_name}__"))
