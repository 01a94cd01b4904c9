#!/usr/bin/env python3
"""The shelf through the C face, against shelves.py: long sequences by both parties, with the whole shelf compared after every
call; runs that differ in the other party alone; halves damaged in every way; gaps, slots and outputs at their limits; the order
of the refusals; shelves of any bytes and any length."""
import itertools
import random

import draws
import records
import shelves
from calls import garbage, run
from shelves import ENTRY, FIRST, HALF, SHELF, SLOTS, entry, half_by_hand, half_of, laid_out, overwritten, shelf_of

SEED = 20270211
CLEAR, PUT, GET, DROP = "shelf_clear", "shelf_put", "shelf_get", "shelf_drop"
EXAMPLE, NONE = records.EXAMPLE, records.encode(2, [])
ROOM = HALF - FIRST  # bytes of a half that records may have
LARGEST = 1342  # terms of the longest record that fits: 32,240 of 32,256 bytes
EMPTY = bytes(HALF)
LEAST_CALLS = 10000  # of each function
FULL = 2**64 - 1


def judge(calls, test, number, name, *args):
    """A call that must come to this number, 0 for none: of operand 1 where it is the record's own, else of none."""
    answer = calls.judge(test, name, *args)
    assert answer.numbers[:2] == [number, int(1 <= number <= 5)], (test, name, number, answer.numbers[:3])
    return answer


def of_each(party, a=EXAMPLE, slot=0, room=100):
    """One call of each function that names a party: its name, and its arguments but for the shelf."""
    return (PUT, party, a), (GET, party, slot, room), (DROP, party, slot)


def record(rng, n):
    """Of n terms, which are 32 + 24 n bytes."""
    return records.encode(64, draws.many(rng, 64, n))


def refused_records(rng):
    """{number: a record that is refused with it}, 1 to 5."""
    good = draws.many(rng, 33, 6)
    wrong = {number: records.encode(33, rows) for number, _, rows in draws.damaged_terms(rng, 33, good)}
    return {1: rng.choice(list(draws.damaged_headers(rng, records.encode(33, good)))), **wrong}


def sound_half(rng, *slots):
    """Records of a few terms in these slots, far apart, and garbage in the gaps."""
    places = rng.sample(range(FIRST, HALF - 300, 300), len(slots))
    entries = {slot: (place, 32 + 24 * rng.randrange(10)) for slot, place in zip(slots, places)}
    half = laid_out(entries, rng.randbytes(ROOM))
    for start, length in entries.values():
        half = overwritten(half, start, record(rng, (length - 32) // 24))
    return half


# Shelves that are held from call to call


class Held:
    """A shelf that the library changes from call to call, and the model's beside it; the first never comes from the second."""

    def __init__(self, calls, data):
        self.calls = calls
        self.begin(data)

    def begin(self, data):
        self.model, self.memory = data, self.calls.held(data)

    def judge(self, test, name, *args):
        """One call on both, compared, with all that it leaves. Gives the library's answer, and the one that is expected."""
        got, expected = self.calls.call(name, self.memory, *args), self.calls.expected(name, self.model, *args)
        self.calls.compare(test, name, (self.model, *args), got, expected)
        if name != GET:
            self.model = expected.lent[0]
        return got, expected

    def half(self, party):
        """As the library left it."""
        return half_of(self.memory.data, party)

    def scribble(self, party, half):
        """Other bytes in a party's half, which no call has written."""
        self.begin(shelf_of(party, half, self.half(1 - party)))


def by_hand():
    """(put or drop, record, slot, start): records of 80, 32, 56 bytes put and dropped, and where each must come to stand."""
    one = records.encode(1, [(1, 0, -5)])
    return [
        (PUT, EXAMPLE, 0, 512), (PUT, NONE, 1, 592), (PUT, one, 2, 624), (PUT, EXAMPLE, 3, 680),
        (DROP, None, 1, None), (PUT, one, 1, 760),  # 32 bytes are too few
        (PUT, NONE, 4, 592),  # and are filled
        (DROP, None, 0, None), (PUT, NONE, 0, 512), (PUT, one, 5, 816), (PUT, NONE, 6, 544),  # 48 are left, then 16
        (DROP, None, 3, None), (PUT, EXAMPLE, 3, 680), (DROP, None, 6, None), (DROP, None, 0, None),
        (PUT, EXAMPLE, 0, 512), (PUT, NONE, 6, 872), (DROP, None, 2, None), (DROP, None, 4, None),
        (DROP, None, 3, None), (PUT, record(random.Random(0), 5), 2, 592),  # three gaps that were dropped one by one
    ]


def check_example(calls):
    """The half after each step as it is worked out by hand, for each party beside each kind of other half."""
    rng = calls.rng
    for party, other in itertools.product((0, 1), (EMPTY, sound_half(rng, 0, 5, 15), rng.randbytes(HALF), b"\xff" * HALF)):
        held, placed = Held(calls, shelf_of(party, EMPTY, other)), {}
        for name, a, slot, start in by_hand():
            got, _ = held.judge("a sequence worked out by hand", name, party, a if name == PUT else slot)
            if name == PUT:
                placed[slot] = start, a
            else:
                del placed[slot]
            told = [0, 0, 0, 0, 0, slot if name == PUT else 0, 0, 0], half_by_hand(placed), other
            seen = got.numbers, held.half(party), held.half(1 - party)
            calls.tally.same("a sequence worked out by hand: by hand", seen, told, (party, name, slot))
        for slot, (_, a) in placed.items():
            got, _ = held.judge("a sequence worked out by hand", GET, party, slot, 200)
            told = [0, 0, 0, len(a), 0, 0, 0, 0], (a + bytes(200 - len(a)),)
            calls.tally.same("a sequence worked out by hand: by hand", tuple(got), told, (party, slot))


# Lengths, parties, slots


def check_clear(calls):
    """Whatever is lent is zeroed, of any length; and a shelf in any state, whose parties then begin afresh."""
    rng = calls.rng
    lengths = [*range(600), HALF - 1, HALF, HALF + 1, SHELF - 1, SHELF, SHELF + 1, 2 * SHELF, 1 << 20]
    lengths += [rng.randrange(400) for _ in range(LEAST_CALLS)]
    for length in lengths:
        answer = judge(calls, "clear of any length", 0, CLEAR, garbage(rng, length))
        assert answer == records.Answer([0] * 8, (bytes(length),))
    for half in (rng.randbytes(HALF), b"\xff" * HALF, sound_half(rng, *range(SLOTS))):
        held = Held(calls, half + half[::-1])
        held.judge("after a clear", CLEAR)
        for (slot, n), party in itertools.product(enumerate((0, 3, 1337)), (0, 1)):  # to the last byte
            got, _ = held.judge("after a clear", PUT, party, record(rng, n))
            calls.tally.same("after a clear both halves are free", got.numbers, [0, 0, 0, 0, 0, slot, 0, 0], (party, slot))


def check_lengths(calls):
    """A shelf of any length but 65,536 is refused with 19, whatever it holds; a party that is none comes before."""
    rng = calls.rng
    whole = sound_half(rng, 0, 3) + sound_half(rng, 0, 9)
    wrong = refused_records(rng)
    for length in (0, 1, 7, 8, 31, 32, 33, 511, 512, 544, 4096, HALF - 1, HALF, HALF + 1, HALF + 512, SHELF - HALF // 2,
                   SHELF - 32, SHELF - 1, SHELF + 1, SHELF + 32, SHELF + HALF, 2 * SHELF):
        for data in ((whole + whole)[:length], bytes(length), whole[:length] + bytes(max(0, length - SHELF))):
            for party, a in itertools.product((0, 1), (EXAMPLE, wrong[1], wrong[5])):
                for name, *args in of_each(party, a):
                    judge(calls, "shelves of another length: refusal 19", 19, name, data, *args)
            for name, *args in of_each(2):
                judge(calls, "shelves of another length, and no such party: refusal 18", 18, name, data, *args)
    for party in (0, 1):
        for name, *args in of_each(party, room=300):
            judge(calls, "shelves of 65,536 bytes", 0, name, whole, *args)


def check_parties(calls):
    """The party is judged whole, and before anything else; 2^49 halves are 2^64 bytes."""
    rng = calls.rng
    sound, wrong = sound_half(rng, 0, 1) + sound_half(rng, 0, 2), refused_records(rng)
    full = laid_out({slot: (FIRST + 2016 * slot, 2016) for slot in range(SLOTS)}) * 2
    for party in (2, 3, 4, 255, 256, 257, 2**16, 2**16 + 1, 2**31, 2**32, 2**32 + 1, 2**48, 2**49, 2**49 + 1, 2**63, 2**63 + 1,
                  FULL - 1, FULL):
        for data in (sound, bytes(SHELF), full, rng.randbytes(SHELF), sound[:-1], b""):
            for a, slot, room in ((EXAMPLE, 0, 99), (wrong[2], 16, 0), (b"", FULL, 5), (wrong[4], 1, 999)):
                for name, *args in of_each(party, a, slot, room):
                    judge(calls, "parties that are none: refusal 18", 18, name, data, *args)


def check_slots(calls):
    """Each of the 16 slots, used and free; and numbers from 16 on, of which some, or 32 times some, are small when cut."""
    rng = calls.rng
    unknown = [16, 17, 18, 31, 32, 63, 64, 255, 256, 271, 512, 1023, 1024, 2**16, 2**27, 2**27 + 3, 2**31, 2**32, 2**32 + 15,
               2**59, 2**59 + 3, 2**60, 2**63, 2**63 + 3, FULL - 15, FULL]
    for slots in ((), (0,), (15,), (3, 15), range(15), range(1, 16), range(SLOTS)):
        half = sound_half(rng, *slots)
        for party, other in itertools.product((0, 1), (EMPTY, sound_half(rng, *range(SLOTS)))):
            shelf = shelf_of(party, half, other)
            for slot, room in itertools.product(range(SLOTS), (0, 300)):
                told = (0 if room else 11) if slot in slots else 22
                judge(calls, "slots 0 to 15, used and free", told, GET, shelf, party, slot, room)
                judge(calls, "slots 0 to 15, used and free", 0 if slot in slots else 22, DROP, shelf, party, slot)
            for slot, room in itertools.product(unknown, (0, 300)):
                judge(calls, "slots from 16 on: refusal 22", 22, GET, shelf, party, slot, room)
                judge(calls, "slots from 16 on: refusal 22", 22, DROP, shelf, party, slot)


def check_outputs(calls):
    """Outputs exactly right, a byte short, far too short, none, and to spare; the bytes handed on from call to call."""
    rng = calls.rng
    for handed_on, length in itertools.product((None, {}), (32, 33, 56, 80, 104, 2000, 5000, ROOM - 16, ROOM)):
        calls.workspace = handed_on
        start = rng.randrange(FIRST, HALF - length + 1)
        held = Held(calls, shelf_of(1, laid_out({2: (start, length)}, rng.randbytes(ROOM)), rng.randbytes(HALF)))
        kept = held.half(1)[start:start + length]
        for room in (length, length + 1, length + rng.randrange(2, 999), HALF, SHELF):
            got, _ = held.judge("outputs exactly right, and to spare", GET, 1, 2, room)
            told = [0, 0, 0, length, 0, 0, 0, 0], (kept + bytes(room - length),)
            calls.tally.same("outputs exactly right, and to spare: by hand", tuple(got), told, (length, room))
        for room in (0, 1, 31, length - 24, length - 1, rng.randrange(length)):
            got, _ = held.judge("an output too short: refusal 11", GET, 1, 2, room)
            told = [11, 0, 0, 0, 0, 0, 0, 0], (bytes(room),)
            calls.tally.same("an output too short: by hand", tuple(got), told, (length, room))
    calls.workspace = None


# Damage


def judge_damaged(calls, test, half, other):
    """A damaged half, beside another with a record in slot 0 and with room: 19 for its party, and the other does not notice."""
    for party in (0, 1):
        shelf = shelf_of(party, half, other)
        for name, *args in of_each(party):
            judge(calls, f"{test}: refusal 19", 19, name, shelf, *args)
        for name, *args in of_each(1 - party, room=300):
            answer = judge(calls, f"{test}, in the other half", 0, name, shelf, *args)
            alone = calls.expected(name, shelf_of(party, EMPTY, other), *args)
            assert answer.numbers == alone.numbers
            assert name == GET or half_of(answer.lent[0], 1 - party) == half_of(alone.lent[0], 1 - party)


def check_free_entries(calls):
    """Each of the 32 bytes of a free entry that is not zero: then it is used, and has no record's place and length."""
    rng = calls.rng
    other = sound_half(rng, 0, 7)
    for slot, at in itertools.product(range(SLOTS), range(ENTRY)):
        half = sound_half(rng, *rng.sample([used for used in range(SLOTS) if used != slot], 3))
        for byte in (1, rng.choice((2, 32, 64, 128, 255))):
            judge_damaged(calls, "a byte of a free entry", overwritten(half, ENTRY * slot + at, bytes([byte])), other)


def check_used_entries(calls):
    """Each of the 24 zero bytes of a used entry; then each of the 8 before them, which may leave the half sound."""
    rng = calls.rng
    other = sound_half(rng, 0, 15)
    for slot in range(SLOTS):
        half = sound_half(rng, slot, (slot + 1) % SLOTS, (slot + 5) % SLOTS)
        for at, byte in itertools.product(range(8, ENTRY), (1, rng.choice((128, 255)))):
            judge_damaged(calls, "a zero byte of a used entry", overwritten(half, ENTRY * slot + at, bytes([byte])), other)
        for at, byte in itertools.product(range(8), (0, 1, 2, 127, 128, 255)):
            changed = overwritten(half, ENTRY * slot + at, bytes([byte]))
            for name, *args in of_each(1, slot=slot, room=999):
                calls.judge("a byte of a place or a length", name, other + changed, *args)


SOUND_ENTRIES = [
    (512, 32), (512, 33), (512, 55), (513, 32), (544, 32), (512, ROOM), (512, ROOM - 1), (513, ROOM - 1), (32736, 32),
    (32735, 33), (32735, 32), (32712, 56), (32711, 57), (600, 1000), (1000, 31768),
]
DAMAGED_ENTRIES = [
    (512, 31), (512, 1), (512, 0), (32737, 31), (511, 32), (511, 33), (480, 32), (1, 32), (0, 32), (0, 544), (0, HALF),
    (32737, 32), (32736, 33), (32767, 32), (32768, 32), (32769, 32), (32768, 0), (512, ROOM + 1), (513, ROOM), (512, HALF),
    (1000, 31769), (0, 31), (511, 31), (32738, 31), (32767, 1),
    # of 16 or of 31 bits, or with a sign, they would be sound
    (2**16 + 512, 32), (512, 2**16 + 32), (2**31 + 512, 32), (512, 2**31 + 32), (2**24 + 512, 32), (512, 2**24 + 32),
    # sums of 2^32 and more, which are small in 32 bits
    (2**32 - 1, 33), (2**32 - 1, 32), (2**32 - 1, 513), (2**32 - 32, 32), (2**32 - 32, 544), (2**32 - 512, 1024),
    (512, 2**32 - 512), (512, 2**32 - 480), (512, 2**32 - 1), (32736, 2**32 - 32), (2**31, 2**31), (2**31 + 1, 2**31 + 600),
    (2**32 - 1, 2**32 - 1),
]


def check_limits(calls):
    """One entry at its limits and past them, in the first, the last and a slot between."""
    rng = calls.rng
    other = sound_half(rng, 0, 8)
    for slot in (0, 6, 15):
        for one, party in itertools.product(SOUND_ENTRIES, (0, 1)):
            half = laid_out({slot: one}, rng.randbytes(ROOM))
            shelf, room = shelf_of(party, half, other), max(one[0] - FIRST, HALF - sum(one))
            judge(calls, "an entry at its limits", 0 if room >= 80 else 21, PUT, shelf, party, EXAMPLE)
            answer = judge(calls, "an entry at its limits", 0, GET, shelf, party, slot, HALF)
            assert answer.lent[0][:one[1]] == half[one[0]:sum(one)]
            judge(calls, "an entry at its limits", 0, DROP, shelf, party, slot)
        for one in DAMAGED_ENTRIES:
            judge_damaged(calls, "an entry past its limits", laid_out({slot: one}, rng.randbytes(ROOM)), other)


APART = [(900, 100), (1100, 50), (968, 32), (600, 400), (1100, HALF - 1100), (1101, 32)]  # from 100 bytes at 1,000
IN_COMMON = [
    (901, 100), (1099, 50), (969, 32), (1000, 100), (1000, 32), (1000, 500), (1068, 32), (900, 200), (1010, 50), (900, 300),
    (999, 102), (512, ROOM), (1001, 98), (512, 489), (1099, HALF - 1099), (1050, 2**32 - 40), (1000, 2**32 - 1),
]


def check_overlaps(calls):
    """Two entries that touch, or have a byte or more in common: in slots side by side and far apart, with others between."""
    rng = calls.rng
    other, pairs = sound_half(rng, 0, 8), ((0, 1), (1, 0), (7, 8), (0, 15), (15, 0), (2, 12), (12, 2))
    for slots, more in itertools.product(pairs, ({}, {9: (512, 32)}, {9: (512, 32), 4: (544, 56)})):
        for second, party in itertools.product(APART, (0, 1)):
            entries = {**more, **dict(zip(slots, ((1000, 100), second)))}
            shelf = shelf_of(party, laid_out(entries, rng.randbytes(ROOM)), other)
            for slot, (_, length) in entries.items():
                judge(calls, "entries that touch", 0, GET, shelf, party, slot, length)
                judge(calls, "entries that touch", 0, DROP, shelf, party, slot)
            judge(calls, "entries that touch", 0, PUT, shelf, party, NONE)
        for second in IN_COMMON:
            half = laid_out({**more, **dict(zip(slots, ((1000, 100), second)))}, rng.randbytes(ROOM))
            judge_damaged(calls, "entries with bytes in common", half, other)


def check_random(calls):
    """Shelves of random bytes: damaged, all of them; and with both halves' entries zero, so that all the rest is a gap."""
    rng = calls.rng
    for i in range(300):
        shelf = garbage(rng, SHELF) if i % 2 else rng.randbytes(SHELF)
        for party in (0, 1):
            for name, *args in of_each(party, slot=rng.randrange(20), room=rng.randrange(200)):
                judge(calls, "all bytes random: refusal 19", 19, name, shelf, *args)
    for i in range(100):
        held = Held(calls, shelf_of(i % 2, bytes(FIRST) + rng.randbytes(ROOM), rng.randbytes(HALF)))
        for _ in range(6):
            held.judge("no entries, all else random", PUT, i % 2, record(rng, rng.randrange(400)))
            held.judge("no entries, all else random", GET, i % 2, rng.randrange(SLOTS), rng.choice((0, 300, HALF)))
            held.judge("no entries, all else random", DROP, i % 2, rng.randrange(4))


def check_drawn_halves(calls):
    """Entries near each other and near both ends, often damaged, of bytes that are no records, which nothing judges."""
    rng = calls.rng
    for i in range(2500):
        (entries, half, _), (_, other, _) = shelves.drawn_half(rng), shelves.drawn_half(rng)
        party, slots = i % 2, [*entries, rng.randrange(SLOTS + 1)]
        shelf, damaged = shelf_of(party, half, other), shelves.taken(half) is None
        said = "drawn entries, damaged" if damaged else "drawn entries, sound"
        a, slot, room = record(rng, rng.choice((0, 1, 2, 17, 200))), rng.choice(slots), rng.choice((32, 80, HALF))
        for name, *args in of_each(party, a, slot, room):
            answer = calls.judge(said, name, shelf, *args)
            assert damaged == (answer.numbers[0] == 19)


# Gaps and slots


def with_gaps(rng, lengths):
    """A half whose gaps have these lengths, in order of place, with an entry after each but the last; and where the gaps start.
    A length may be 0. The entries have at least 32 bytes, stand in drawn slots, and leave no other gap."""
    count = len(lengths) - 1
    spare = ROOM - sum(lengths) - 32 * count
    cuts = sorted(rng.randrange(spare + 1) for _ in range(count - 1))
    sizes = [32 + high - low for low, high in zip([0, *cuts], [*cuts, spare])]
    entries, starts, at = {}, [], FIRST
    for gap, size, slot in zip(lengths, sizes, rng.sample(range(SLOTS), count)):
        starts.append(at)
        entries[slot] = at + gap, size
        at += gap + size
    assert at + lengths[-1] == HALF
    return laid_out(entries, rng.randbytes(ROOM)), [*starts, at], min(set(range(SLOTS)) - set(entries))


def gaps_for(size):
    """(lengths of gaps, the one that a record of this size must come to stand in, None where none is long enough)."""
    short = size - 1
    yield from (([size, 0], 0), ([short, 0], None), ([0, size], 1), ([0, short], None), ([size + 1, 0], 0))
    yield from (([short, size], 1), ([0, size, 0], 1), ([0, short, 0], None), ([short] * 5 + [size], 5), ([short] * 14, None))
    yield from (([short, size + 500, size], 1), ([size + 1, size], 0), ([size + 900, size + 1, size], 0), ([size, size], 0))
    yield from (([0, short, 0, size + 23, size, 0], 3), ([31, size, 5000, 0], 1), ([31, 24, 1, short, 0, size], 5))
    yield from (([short, 0] * 7, None), ([0] * 12 + [size, 0], 12), ([0] * 14 + [size], 14), ([0] * 14 + [short], None))


def check_gaps(calls):
    """A record comes to stand at the start of the lowest gap that is long enough, even where another fits it better. Gaps as
    long as it, a byte shorter, and longer; below all records, between them, and past them."""
    rng = calls.rng
    for n in (0, 1, 2, 7, 20, 60):
        a, size = record(rng, n), 32 + 24 * n
        for (lengths, at), party in itertools.product(gaps_for(size), (0, 1)):
            half, starts, slot = with_gaps(rng, lengths)
            held, told = Held(calls, shelf_of(party, half, rng.randbytes(HALF))), (21, 0, half)
            got, _ = held.judge("gaps", PUT, party, a)
            if at is not None:
                told = 0, slot, overwritten(overwritten(half, starts[at], a), ENTRY * slot, entry(starts[at], size))
            calls.tally.same("gaps: by hand", (got.numbers[0], got.numbers[5], held.half(party)), told, (size, lengths))


def filling(rng, count):
    """The terms of so many records, a multiple of 3, that have all 32,256 bytes together."""
    terms = (ROOM - 32 * count) // 24
    cuts = sorted(rng.sample(range(1, terms), count - 1))
    return [high - low for low, high in zip([0, *cuts], [*cuts, terms])]


def check_freed(calls):
    """A half that is full: what is dropped makes room for as much at the same place, and no more; two side by side for both."""
    rng = calls.rng
    for count, party in itertools.product((3, 6, 9, 12, 15), (0, 1)):
        sizes = filling(rng, count)
        all_of = [record(rng, n) for n in sizes]
        held = Held(calls, shelf_of(party, EMPTY, rng.randbytes(HALF)))
        for a, number in (*((a, 0) for a in all_of), (NONE, 21), (EXAMPLE, 21)):
            got, _ = held.judge("a half that is filled to its last byte", PUT, party, a)
            calls.tally.same("a half that is filled to its last byte: by hand", got.numbers[0], number, sizes)
        full = held.half(party)
        for slot in rng.sample(range(count), min(count, 6)):
            held.judge("room that is freed", DROP, party, slot)
            held.judge("room that is freed", PUT, party, record(rng, sizes[slot] + 1))
            held.judge("room that is freed", PUT, party, all_of[slot])
            calls.tally.same("room that is freed: filled again, the half is as it was", held.half(party), full, (sizes, slot))
        held.judge("room that is freed", DROP, party, 1)
        held.judge("room that is freed", DROP, party, 0)
        for more, number in ((2, 21), (1, 0)):  # they had two headers, of which one makes room for a term
            got, _ = held.judge("room that is freed", PUT, party, record(rng, sizes[0] + sizes[1] + more))
            calls.tally.same("room that is freed: two side by side", got.numbers[0], number, sizes)


def check_largest(calls):
    """The longest record that fits and the next; the longest that there is; and what is left beside the first."""
    rng = calls.rng
    largest = record(rng, LARGEST)
    for party, other in itertools.product((0, 1), (EMPTY, rng.randbytes(HALF), sound_half(rng, *range(SLOTS)))):
        shelf = shelf_of(party, EMPTY, other)
        for n, number in ((LARGEST, 0), (LARGEST + 1, 21), (1366, 21), (2048, 21), (0, 0)):
            judge(calls, "the longest records", number, PUT, shelf, party, record(rng, n))
        held = Held(calls, shelf)
        held.judge("the longest records", PUT, party, largest)
        got, _ = held.judge("the longest records", GET, party, 0, len(largest))
        calls.tally.same("the longest record comes back", got.lent, (largest,), party)
        for a in (NONE, EXAMPLE, largest):
            held.judge("the longest records", PUT, party, a)
        held.judge("the longest records", DROP, party, 0)
        calls.tally.same("the longest record is gone", held.half(party), EMPTY, party)


def check_full(calls):
    """16 records: then 20 comes for every record that is accepted, before 21; a slot that is freed is the lowest again."""
    rng = calls.rng
    for party in (0, 1):
        held = Held(calls, shelf_of(party, EMPTY, sound_half(rng, *range(SLOTS))))
        for slot in range(SLOTS):
            got, _ = held.judge("all 16 slots", PUT, party, record(rng, rng.randrange(40)))
            calls.tally.same("all 16 slots, in order", got.numbers, [0, 0, 0, 0, 0, slot, 0, 0], slot)
        for n in (0, 1, 40, LARGEST, LARGEST + 1, 2048):
            _, expected = held.judge("a 17th record: refusal 20", PUT, party, record(rng, n))
            assert expected.numbers[0] == 20
        for slots in ([15], [0], [7, 3], [3, 7], rng.sample(range(SLOTS), 9)):
            for slot in slots:
                held.judge("slots that are freed", DROP, party, slot)
            for slot in sorted(slots):
                got, _ = held.judge("slots that are freed", PUT, party, record(rng, rng.randrange(9)))
                calls.tally.same("slots that are freed: the lowest first", got.numbers[5], slot, slots)


# The order of the refusals


def damaged_shelves(rng, party, half, other):
    """The shelf of two halves with a byte of the party's entry in slot 3, which is used, damaged; and of another length."""
    byte = ENTRY * 3 + rng.randrange(8, ENTRY)
    yield shelf_of(party, overwritten(half, byte, b"\x40"), other)
    yield shelf_of(party, half, other)[:-1]
    yield shelf_of(party, half, other) + b"\0"


def first_of(order, faults):
    """The number that comes first in an order, of those that apply; 0 where none does."""
    return next((number for number in order if number in faults), 0)


def check_order(calls):
    """Every set of faults at once: the first of 18, 19, the record's own, 20, 21; of 18, 19, 22, 11; of 18, 19, 22."""
    rng = calls.rng
    wrong = {0: EXAMPLE, **refused_records(rng)}
    some = {slot: (FIRST + 100 * slot, 80) for slot in range(SLOTS)}
    no_gap = {**some, 15: (2012, HALF - 2012)}
    states = [({3: (FIRST, 32)}, set()), (some, {20}), ({3: (FIRST, ROOM)}, {21}), (no_gap, {20, 21})]
    for party, (entries, full), more in itertools.product((0, 1), states, (0, 2, 2**32)):
        half, other = laid_out(entries, rng.randbytes(ROOM)), rng.randbytes(HALF)
        named, no_party = party + more, {18} if more else set()
        damaged = [(bad, no_party | {19}) for bad in damaged_shelves(rng, party, half, other)]
        for shelf, faults in [(shelf_of(party, half, other), no_party), *damaged]:
            for number, a in wrong.items():
                told = first_of((18, 19, 1, 2, 3, 4, 5, 20, 21), faults | full | {number})
                judge(calls, "faults at once, in order: put", told, PUT, shelf, named, a)
            for slot, room in itertools.product((3, 16, FULL), (0, 31, HALF)):
                no_slot, too_short = {22} if slot > 15 else set(), {11} if room < 32 else set()
                told = first_of((18, 19, 22, 11), faults | no_slot | too_short)
                judge(calls, "faults at once, in order: get", told, GET, shelf, named, slot, room)
                told = first_of((18, 19, 22), faults | no_slot)
                judge(calls, "faults at once, in order: drop", told, DROP, shelf, named, slot)


def check_refused_records(calls):
    """Records damaged in every way, with their places, on shelves with room and without; a refused put changes nothing."""
    rng = calls.rng
    full = laid_out({slot: (FIRST + 2016 * slot, 2016) for slot in range(SLOTS)})
    for m in (1, 7, 33, 64):
        good = draws.many(rng, m, 4 if m == 1 else 6)
        wrong = [(1, 0, a) for a in draws.damaged_headers(rng, records.encode(m, good))]
        wrong += [(number, place, records.encode(m, rows)) for number, place, rows in
                  [*draws.damaged_terms(rng, m, good), *draws.two_faults(rng, m, good)]]
        for (number, place, a), half in itertools.product(wrong, (EMPTY, full)):
            answer = judge(calls, "records that are refused: 1 to 5", number, PUT, half + full, 0, a)
            assert answer == records.Answer([number, 1, place, 0, 0, 0, 0, 0], (half + full,))


# Long sequences


def pool(rng, kind):
    """Records of one sequence: short ones, which use up slots, long ones, which use up room, or both; some are refused."""
    sizes = {"short": [*range(12)] * 3, "long": [60, 90, 130, 200, 300, 450, 700, 1000, LARGEST, 2048],
             "mixed": [*range(8), 40, 60, 80, 90, 110, 150, 250, 400]}[kind]
    return [record(rng, n) for n in sizes * 2] + rng.sample(list(refused_records(rng).values()), 2 + 2 * (kind == "mixed"))


def drawn_call(rng, party, half, some, share):
    """A call of a party whose half is this: a put with a probability; else a get or a drop, most of them of a used slot."""
    named = party if rng.random() < 0.99 else rng.choice((party + 2, party + 2**32, FULL))
    if rng.random() < share:
        return PUT, named, rng.choice(some)
    used = {slot: shelves.range_of(data)[1] for slot, data in shelves.used(half).items()}
    known = used and rng.random() < 0.9
    slot = rng.choice(sorted(used)) if known else rng.choice((rng.randrange(SLOTS), rng.randrange(SLOTS), 16, 2**32 + 1, FULL))
    if rng.random() < 0.5:
        return DROP, named, slot
    length = min(used.get(slot, 80), ROOM)
    rooms = length, length, length + rng.randrange(200), max(0, length - 1), rng.randrange(200), 0
    return GET, named, slot, rng.choice(rooms)


def judge_kept(held, kept, call, got):
    """Without the model: what was put is given until it is dropped. By the answers so far `kept` has each party's slots."""
    name, party, *args = call
    if got.numbers[0] or party > 1:
        return
    tally, slots = held.calls.tally, kept[party]
    if name == PUT:
        lowest = next(slot for slot in range(SLOTS + 1) if slot not in slots)
        tally.same("a put takes the lowest free slot", got.numbers[5], lowest, sorted(slots))
        slots[got.numbers[5]] = args[0]
    elif name == GET:
        tally.same("a get gives what was put", got.lent[0][:got.numbers[3]], slots.get(args[0]), call)
    else:
        slots.pop(args[0], None)


def judge_left(held, kept):
    """The records that are kept stand in a half, and nothing else: no byte of one that was dropped."""
    for party, slots in kept.items():
        starts = {slot: shelves.range_of(data)[0] for slot, data in shelves.used(held.half(party)).items()}
        placed = {slot: (start, slots[slot]) for slot, start in starts.items() if slot in slots}
        held.calls.tally.same("the slots that are kept are used", sorted(starts), sorted(slots), party)
        held.calls.tally.same("nothing but what is kept stands in a half", held.half(party), half_by_hand(placed), party)


def play(calls, rng, kind, length):
    """One sequence from a clear on, of puts mostly and then of drops mostly, and so on; in it 19 never comes."""
    held, kept, some = Held(calls, garbage(rng, SHELF)), {0: {}, 1: {}}, pool(rng, kind)
    for i in range(length):
        if i == 0 or rng.random() < 0.002:
            held.judge(f"sequences of both parties, {kind} records", CLEAR)
            kept = {0: {}, 1: {}}
            continue
        party, share = rng.randrange(2), (0.7, 0.35, 0.5, 0.25)[i // 60 % 4]
        call = drawn_call(rng, party, half_of(held.model, party), some, share)
        got, expected = held.judge(f"sequences of both parties, {kind} records", *call)
        assert expected.numbers[0] != 19
        judge_kept(held, kept, call, got)
    judge_left(held, kept)


def check_sequences(calls):
    for kind, times in (("short", 4), ("mixed", 8), ("long", 4)):
        for _ in range(times):
            play(calls, calls.rng, kind, 2500)


# Two runs


def own_calls(rng, party, half, some, length):
    """Calls of one party from this half on, with some clears among them, drawn along its half alone."""
    shelf, found = shelf_of(party, half, EMPTY), []
    for _ in range(length):
        call = drawn_call(rng, party, half_of(shelf, party), some, 0.45) if rng.random() < 0.98 else (CLEAR,)
        found.append(call)
        name, *args = call
        if name != GET:
            shelf = {CLEAR: shelves.clear, PUT: shelves.put, DROP: shelves.drop}[name](shelf, *args).lent[0]
    return found


def view(held, party, own, between):
    """What a party sees of a run: its answers, its outputs, and its half after each of its calls and of the clears."""
    for name, *args in own:
        between(held)
        got, _ = held.judge("runs beside another party", name, *args)
        yield got.numbers, got.lent if name == GET else (), held.half(party)


def busy(rng, party, some, share):
    """Between two calls, up to four of the other party."""
    def between(held):
        for _ in range(rng.randrange(5)):
            held.judge("runs beside another party", *drawn_call(rng, party, half_of(held.model, party), some, share))
    return between


def scribbling(rng, party):
    """Between two calls, sometimes other bytes in the other half: random ones, or entries that are no longer sound."""
    def between(held):
        if rng.random() < 0.3:
            held.scribble(party, rng.choice((rng.randbytes(HALF), b"\xff" * HALF, shelves.drawn_half(rng)[1], EMPTY)))
    return between


def starts(rng):
    """What a run begins with, and the party's half then; a clear comes first where the half is None."""
    yield "a clear", None
    yield "a sound half", sound_half(rng, *rng.sample(range(SLOTS), 6))
    yield "a drawn half", shelves.drawn_half(rng)[1]


def check_two_runs(calls):
    """One party's calls beside nobody's, beside short records, long ones and both, and beside a half that is overwritten: it
    sees the same. From a clear on, whatever the shelves held; and without one, from shelves that agree on its half."""
    rng = calls.rng
    for party, _ in itertools.product((0, 1), range(8)):
        short, long, nobody = pool(rng, "short"), pool(rng, "long"), lambda held: None
        tenants = (short, 0.7), (long, 0.5), (short + long, 0.3)
        others = [nobody, *(busy(rng, 1 - party, *tenant) for tenant in tenants), scribbling(rng, 1 - party)]
        for said, half in starts(rng):
            own = [(CLEAR,)] * (half is None) + own_calls(rng, party, half or EMPTY, pool(rng, "mixed"), 40)
            views = []
            for between in others:
                other = rng.choice((rng.randbytes(HALF), EMPTY, sound_half(rng, *range(SLOTS)), shelves.drawn_half(rng)[1]))
                held = Held(calls, shelf_of(party, half or rng.randbytes(HALF), other))
                views.append(list(view(held, party, own, between)))
            test = f"two runs from {said} on: the same answers, outputs and half"
            for seen, at in itertools.product(views[1:], range(len(own))):
                calls.tally.same(test, seen[at], views[0][at], own[at][:2])


def check_counts(calls):
    """Enough of each."""
    for name in (CLEAR, PUT, GET, DROP):
        count = sum(times for (of, _), times in calls.refusals.items() if of == name)
        print(f"{name}: {count:,} calls")
        calls.tally.same(f"at least {LEAST_CALLS:,} calls of each function", count >= LEAST_CALLS, True, (name, count))


shelves.check()
run(SEED, (
    check_example, check_clear, check_lengths, check_parties, check_slots, check_outputs, check_free_entries,
    check_used_entries, check_limits, check_overlaps, check_random, check_drawn_halves, check_gaps, check_freed, check_largest,
    check_full, check_order, check_refused_records, check_sequences, check_two_runs, check_counts,
))
