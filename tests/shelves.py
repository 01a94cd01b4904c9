#!/usr/bin/env python3
"""The shelf as the specification has it: two halves in plain bytes, their entries and gaps, and what each call leaves.

Nothing here comes from the library, which is compared with it. Room is not worked out from the entries' numbers: every used
entry takes its bytes on a map of the half, and what nobody took is a gap.

    python3 tests/shelves.py     checks this file against itself and on a shelf worked out by hand
"""
import itertools
import random
import re
import struct

import records

SHELF, HALF, SLOTS, ENTRY = 65536, 32768, 16, 32
FIRST = SLOTS * ENTRY  # where the records of a half begin
SHORTEST = 32  # bytes of a record


# Halves


def half_of(shelf, party):
    return shelf[party * HALF:(party + 1) * HALF]


def shelf_of(party, half, other):
    """A shelf with this half for a party, and the other one for the other party."""
    return half + other if party == 0 else other + half


def entry(start, length):
    return struct.pack("<2I24x", start, length)


def laid_out(entries, rest=bytes(HALF - FIRST)):
    """A half with these entries, {slot: (start, length)}, and with these bytes after the entries."""
    return b"".join(entry(*entries.get(slot, (0, 0))) for slot in range(SLOTS)) + rest


def overwritten(data, at, new):
    return data[:at] + new + data[at + len(new):]


def used(half):
    """{slot: the 32 bytes of its entry} of the entries that have a byte that is not zero."""
    each = (half[at:at + ENTRY] for at in range(0, FIRST, ENTRY))
    return {slot: data for slot, data in enumerate(each) if data.strip(b"\0")}


def range_of(data):
    """Start and length as an entry has them."""
    return struct.unpack_from("<2I", data)


def taken(half):
    """The map of a half: 1 for each byte of the entries and of a record, 0 for each of a gap. None for a damaged half."""
    bytes_taken = bytearray(b"\1" * FIRST + bytes(HALF - FIRST))
    for data in used(half).values():
        start, length = range_of(data)
        end = start + length
        if length < SHORTEST or start < FIRST or end > HALF or data[8:] != bytes(24) or 1 in bytes_taken[start:end]:
            return None
        bytes_taken[start:end] = b"\1" * length
    return bytes_taken


def gaps(half):
    """(start, length) of the gaps of a half that is not damaged, in order of place."""
    return [(found.start(), len(found[0])) for found in re.finditer(rb"\0+", taken(half))]


# The calls


def refusal(shelf, party):
    """18 or 19, or None."""
    if party not in (0, 1):
        return 18, 0, 0
    return (19, 0, 0) if len(shelf) != SHELF or taken(half_of(shelf, party)) is None else None


def refusal_of_slot(shelf, party, slot):
    """18, 19 or 22, or None."""
    fault = refusal(shelf, party)
    return fault or (None if slot in used(half_of(shelf, party)) else (22, 0, 0))


def clear(shelf):
    return records.given(lent=(bytes(len(shelf)),))


def put(shelf, party, a):
    fault = refusal(shelf, party) or records.refusal(a, 1)
    if fault:
        return records.refused(fault, shelf)
    half, other = half_of(shelf, party), half_of(shelf, 1 - party)
    free = [slot for slot in range(SLOTS) if slot not in used(half)]
    long_enough = [start for start, length in gaps(half) if length >= len(a)]
    if not free or not long_enough:
        return records.refused((21 if free else 20, 0, 0), shelf)
    slot, start = free[0], long_enough[0]
    half = overwritten(overwritten(half, start, a), slot * ENTRY, entry(start, len(a)))
    return records.given(slot, lent=(shelf_of(party, half, other),))


def get(shelf, party, slot, out_len):
    """The lent bytes are the output."""
    fault = refusal_of_slot(shelf, party, slot)
    if not fault:
        half = half_of(shelf, party)
        start, length = range_of(used(half)[slot])
        fault = (11, 0, 0) if length > out_len else None
    return records.refused(fault, out_len) if fault else records.written(half[start:start + length], out_len)


def drop(shelf, party, slot):
    fault = refusal_of_slot(shelf, party, slot)
    if fault:
        return records.refused(fault, shelf)
    half, other = half_of(shelf, party), half_of(shelf, 1 - party)
    start, length = range_of(used(half)[slot])
    half = overwritten(overwritten(half, start, bytes(length)), slot * ENTRY, bytes(ENTRY))
    return records.given(lent=(shelf_of(party, half, other),))


# This file against itself


def meet(one, other):
    """Whether two ranges, (start, length) each, have a byte in common."""
    return max(one[0], other[0]) < min(sum(one), sum(other))


def drawn_half(rng):
    """Ranges near each other and near both ends, often damaged; one in eight has a byte too many in an entry."""
    entries = {}
    for slot in rng.sample(range(SLOTS), rng.choice((0, 1, 2, 2, 3, 4))):
        length = rng.choice((31, 32, 33, 56, 80, 5000, 32256))
        start = rng.choice((511, 512, 513, 544, 545, 600, 632, 5544, HALF - length, HALF - length + 1, HALF - length - 40))
        entries[slot] = max(0, start), length
    half = laid_out(entries, rng.randbytes(HALF - FIRST))
    if rng.randrange(8):
        return entries, half, False
    return entries, overwritten(half, ENTRY * rng.randrange(SLOTS) + rng.randrange(8, 32), b"\1"), True


def check_maps(count):
    """Damage told from the ranges two by two, and the lowest gap by trying every start from 512 on."""
    rng, damaged = random.Random(count), 0
    for _ in range(count):
        entries, half, odd = drawn_half(rng)
        ranges = list(entries.values())
        bad = odd or any(length < 32 or start < 512 or start + length > 32768 for start, length in ranges)
        bad = bad or any(meet(*two) for two in itertools.combinations(ranges, 2))
        assert (taken(half) is None) == bad, entries
        damaged += bad
        if not bad:
            need = rng.choice((32, 56, 80, 104, 4432, 4456, 26912, 32240))
            starts = (start for start in range(512, 32769 - need) if not any(meet((start, need), one) for one in ranges))
            assert next(starts, None) == next((start for start, length in gaps(half) if length >= need), None), (entries, need)
    assert count // 4 < damaged < count - count // 4
    return damaged, count - damaged


def step(answer, numbers):
    """The shelf that a call leaves which must come to these numbers."""
    assert answer.numbers == numbers, answer.numbers
    return answer.lent[0]


def half_by_hand(placed):
    """A half that holds these records, {slot: (start, record)}, and is zero otherwise."""
    half = bytearray(HALF)
    for slot, (start, record) in placed.items():
        half[32 * slot:32 * slot + 8] = start.to_bytes(4, "little") + len(record).to_bytes(4, "little")
        half[start:start + len(record)] = record
    return bytes(half)


def check_example():
    """Three records of one party and one of the other; a drop, and its slot and the start of its room used again."""
    a, none = records.EXAMPLE, records.encode(2, [])
    shelf, placed = bytes(SHELF), ({}, {})
    for party, record, slot, start in ((0, a, 0, 512), (0, none, 1, 592), (1, a, 0, 512), (0, a, 2, 624)):
        shelf = step(put(shelf, party, record), [0, 0, 0, 0, 0, slot, 0, 0])
        placed[party][slot] = start, record
        assert shelf == half_by_hand(placed[0]) + half_by_hand(placed[1])
    shelf = step(drop(shelf, 0, 0), [0] * 8)
    assert half_of(shelf, 0) == half_by_hand({1: (592, none), 2: (624, a)}) and half_of(shelf, 1)[512:592] == a
    shelf = step(put(shelf, 0, none), [0] * 8)
    assert half_of(shelf, 0) == half_by_hand({0: (512, none), 1: (592, none), 2: (624, a)})
    assert get(shelf, 0, 2, 82) == records.Answer([0, 0, 0, 80, 0, 0, 0, 0], (a + bytes(2),))
    assert clear(shelf).lent[0] == bytes(SHELF) and clear(b"x").lent[0] == b"\0" and clear(b"").numbers == [0] * 8


def check_refusals():
    """Each of them, what it leaves, and some faults at once."""
    a, none, many = records.EXAMPLE, records.encode(2, []), records.encode(64, [(i, 0, 1) for i in range(1342)])
    shelf = bytes(HALF) + half_by_hand({0: (512, a)})
    for number, data, party, record in ((18, b"", 2, b""), (19, shelf[1:], 0, b""), (1, shelf, 1, a[1:]), (21, shelf, 1, many)):
        assert put(data, party, record) == records.refused((number, int(number == 1), 0), data)
    wrong = (18, b"", 2**64 - 1, 0), (19, b"", 1, 0), (22, shelf, 1, 1), (22, shelf, 0, 0), (22, shelf, 1, 16)
    for number, data, party, slot in wrong:
        assert drop(data, party, slot) == records.refused((number, 0, 0), data)
        assert get(data, party, slot, 9) == records.refused((number, 0, 0), 9)
    assert get(shelf, 1, 0, 79) == records.refused((11, 0, 0), 79) and get(shelf, 1, 0, 80).lent == (a,)
    for _ in range(15):
        shelf = put(shelf, 1, none).lent[0]
    assert put(shelf, 1, none) == put(shelf, 1, many) == records.refused((20, 0, 0), shelf)
    assert put(shelf, 1, a[1:]).numbers[:2] == [1, 1] and put(shelf, 0, many).numbers == [0] * 8


def check():
    """All of it, with what was compared; the first thing that is not so is an AssertionError."""
    check_example()
    check_refusals()
    print("a shelf worked out by hand, and each refusal: as written there")
    print("maps of halves as their ranges say: {} damaged and {} sound".format(*check_maps(1500)))


if __name__ == "__main__":
    check()
