"""A shelf for two parties: worked out by hand, every refusal and what it leaves, both parties at once, memory of the caller's."""
import copy
import ctypes
import functools
import importlib
import mmap
import pickle
import random
import struct
import tempfile
import threading
import unittest
from array import array

import fermion
from common import EXAMPLE, Int64, Refused, needs_numpy, one
from fermion import Reason, Record, Refusal, Shelf, hopping, number

SEED = 20261118
NONE = bytes(Record.build(1, []))  # 32 bytes, the shortest record
OUTSIDE = EXAMPLE[:56] + (4).to_bytes(8, "little") + EXAMPLE[64:]
#: What is not a record, and the refusal that it meets: 1 to 5.
FAULTY = [(b"", (1, 1, 0)), (EXAMPLE[:-1], (1, 1, 0)), (OUTSIDE, (2, 1, 1)),
          (EXAMPLE[:32] + EXAMPLE[40:48] + EXAMPLE[32:40] + EXAMPLE[48:], (3, 1, 1)), (EXAMPLE[:72] + bytes(8), (4, 1, 1)),
          (EXAMPLE[:64] + (2**60).to_bytes(8, "little") + EXAMPLE[72:], (5, 1, 0))]


@functools.lru_cache(maxsize=None)
def sized(terms):
    """A record of 32 + 24 bytes for each term."""
    return bytes(Record.build(11, [(0, word, 1) for word in range(terms)]))


def entry(place, length, rest=bytes(24)):
    return struct.pack("<2I", place, length) + rest


def half_of(entries, filling=bytes(32256)):
    """A half with these entries by their slots, all others free, and any bytes after them."""
    return b"".join(entries.get(slot, bytes(32)) for slot in range(16)) + filling


class Half:
    """What a party keeps, as the specification has it: the place and the bytes of each record, by its slot."""

    def __init__(self):
        self.kept = {}

    def put(self, data):
        free = [slot for slot in range(16) if slot not in self.kept]
        if not free:
            return 20, 0, 0
        ends = [(at, at + len(kept)) for at, kept in self.kept.values()]
        fitting = [start for start in (512, *(end for _, end in ends)) if start + len(data) <= 32768
                   and all(start + len(data) <= other or end <= start for other, end in ends)]
        if not fitting:
            return 21, 0, 0
        self.kept[free[0]] = min(fitting), data
        return free[0]

    def get(self, slot):
        return self.kept[slot][1] if slot in self.kept else (22, 0, 0)

    def drop(self, slot):
        return None if self.kept.pop(slot, None) else (22, 0, 0)

    def __bytes__(self):
        made = bytearray(half_of({slot: entry(at, len(data)) for slot, (at, data) in self.kept.items()}))
        for at, data in self.kept.values():
            made[at:at + len(data)] = data
        return bytes(made)


def outcome(function, *args):
    try:
        return function(*args)
    except Refusal as refusal:
        return refusal.args


def calls(memory):
    """put, get and drop on this memory: those of a Shelf, and those of the C face."""
    shelf = Shelf(memory)
    yield shelf.put, shelf.get, shelf.drop
    yield tuple(functools.partial(call, memory) for call in (fermion.shelf_put, fermion.shelf_get, fermion.shelf_drop))


class Refusing(unittest.TestCase):
    """What several of the classes below expect of a refusal."""

    def same_refusal(self, memory, numbers, call):
        """This refusal, and not a byte of the shelf is changed."""
        before = bytes(memory)
        with Refused(self, *numbers):
            call()
        self.assertEqual(bytes(memory), before)

    def no_get(self, memory, numbers, get, *named, room=100):
        """The same of a get, whose output is then all zero."""
        self.same_refusal(memory, numbers, lambda: get(*named))
        out = bytearray(b"?" * room)
        self.same_refusal(memory, numbers, lambda: get(*named, out=out))
        self.assertEqual(out, bytes(room))

    def nothing_goes(self, memory, numbers, party, slot=0, data=EXAMPLE):
        for put, get, drop in calls(memory):
            self.same_refusal(memory, numbers, lambda: put(party, data))
            self.same_refusal(memory, numbers, lambda: drop(party, slot))
            self.no_get(memory, numbers, get, party, slot)


class Examples(unittest.TestCase):
    def test_a_fresh_shelf(self):
        self.assertEqual(bytes(Shelf()), bytes(65536))
        self.assertEqual((fermion.SHELF, fermion.HALF, fermion.SLOTS), (65536, 32768, 16))

    def kinds(self):
        """A shelf on its own memory, and on the caller's, each with what its bytes are."""
        own, memory = Shelf(), bytearray(65536)
        return [(own, lambda: bytes(own)), (Shelf(memory), lambda: bytes(memory))]

    def test_every_byte_by_hand(self):
        for shelf, held in self.kinds():
            expected = bytearray(65536)
            self.assertEqual([shelf.put(0, EXAMPLE), shelf.put(0, NONE), shelf.put(1, NONE)], [0, 1, 0])
            expected[0:8], expected[512:592] = bytes.fromhex("00020000 50000000"), EXAMPLE
            expected[32:40], expected[592:624] = bytes.fromhex("50020000 20000000"), NONE
            expected[32768:32776], expected[33280:33312] = bytes.fromhex("00020000 20000000"), NONE
            self.assertEqual(held(), expected)
            self.assertEqual([shelf.get(0, 0), shelf.get(0, 1), shelf.get(1, 0)], [EXAMPLE, NONE, NONE])
            self.assertIsNone(shelf.drop(0, 0))
            expected[0:8], expected[512:592] = bytes(8), bytes(80)
            self.assertEqual(held(), expected)
            short = bytes(one(2, (0,), (1,)))
            self.assertEqual([shelf.put(0, short), shelf.put(0, NONE)], [0, 2])  # 24 bytes are left between them: too few
            expected[0:8], expected[512:568] = bytes.fromhex("00020000 38000000"), short
            expected[64:72], expected[624:656] = bytes.fromhex("70020000 20000000"), NONE
            self.assertEqual(held(), expected)
            self.assertIsNone(shelf.clear())
            self.assertEqual(held(), bytes(65536))

    def test_a_gap_that_is_just_long_enough(self):
        for data, slot, place in ((sized(10), 1, 544), (sized(9), 1, 544), (sized(11), 1, 848)):
            shelf = Shelf()
            self.assertEqual([shelf.put(1, each) for each in (NONE, sized(10), NONE)], [0, 1, 2])  # 512, 544, 816
            shelf.drop(1, 1)
            self.assertEqual(shelf.put(1, data), slot)
            self.assertEqual(bytes(shelf)[32768 + 32:32768 + 64], entry(place, len(data)))

    def test_the_lowest_slot_and_the_lowest_gap_are_two_things(self):
        shelf = Shelf()
        for data in (sized(5), NONE, sized(1), NONE):  # at 512, 664, 696, 752
            shelf.put(0, data)
        shelf.drop(0, 0)
        shelf.drop(0, 2)
        self.assertEqual([shelf.put(0, data) for data in (sized(6), sized(1), sized(2), NONE)], [0, 2, 4, 5])
        self.assertEqual(bytes(shelf)[:512], half_of({
            0: entry(784, 176), 1: entry(664, 32), 2: entry(512, 56), 3: entry(752, 32), 4: entry(568, 80),
            5: entry(696, 32)})[:512])

    def test_a_copy_in_lent_memory(self):
        shelf = Shelf()
        slot = shelf.put(1, EXAMPLE)
        for room in (80, 81, 200, 32768, 70000):
            out = bytearray(b"?" * room)
            given = shelf.get(1, slot, out=out)
            self.assertEqual((type(given), given, bytes(out)), (bytes, EXAMPLE, EXAMPLE + bytes(room - 80)))
        out = array("Q", [7] * 11)
        self.assertEqual((fermion.shelf_get(bytes(shelf), 1, slot, out=out), out.tobytes()), (EXAMPLE, EXAMPLE + bytes(8)))

    def test_records_go_in_and_come_out(self):
        shelf = Shelf()
        records = [hopping(4, 0, 3), number(64), Record(EXAMPLE), fermion.commutator(one(2, (0,), (1,)), one(2, (1,), (0,)))]
        for record in records:
            slot = shelf.put(0, record)
            self.assertEqual((Record(shelf.get(0, slot)), shelf.get(0, slot)), (record, bytes(record)))
        self.assertEqual([shelf.put(1, kind(EXAMPLE)) for kind in (bytes, bytearray, memoryview)], [0, 1, 2])
        self.assertEqual(Record(shelf.get(1, 2)) + Record(shelf.get(0, 2)), 2 * Record(EXAMPLE))

    def test_the_longest_record_of_a_half(self):
        shelf = Shelf()
        longest = sized(1342)
        self.assertEqual((len(longest), shelf.put(0, longest), shelf.get(0, 0)), (32240, 0, longest))
        self.assertEqual(bytes(shelf), half_of({0: entry(512, 32240)}, longest + bytes(16)) + bytes(32768))

    def test_get_does_not_look_at_the_record_again(self):
        memory = bytearray(half_of({3: entry(600, 40)}, b"?" * 32256) + bytes(32768))
        for _, get, _ in calls(memory):
            self.assertEqual(get(0, 3), b"?" * 40)
            with Refused(self, 1, 1, 0):
                Record(get(0, 3))


class Refusals(Refusing):
    def test_18_a_party_that_is_not_0_or_1(self):
        for memory in (bytearray(65536), bytearray(b"?" * 65536), bytearray(12)):  # it comes before all others
            for party in (2, 3, 256, 2**32, 2**32 + 1, 2**63, 2**64 - 1):
                self.nothing_goes(memory, (18, 0, 0), party, slot=16, data=b"no record")

    def test_19_a_shelf_of_another_length(self):
        for length in (0, 1, 32768, 65535, 65537, 131072):
            for party in (0, 1):
                self.nothing_goes(bytearray(length), (19, 0, 0), party, slot=16, data=b"no record")

    def damaged(self):
        """Entries, by slot, of halves that are damaged, each in one way."""
        for length in (0, 1, 31):
            yield {0: entry(512, length)}
        for place in (0, 1, 511):
            yield {15: entry(place, 32)}
        for place, length in ((32737, 32), (512, 32257), (32768, 32), (2**32 - 1, 32), (2**32 - 32, 32), (512, 2**32 - 1),
                              (2**32 - 1, 2**32 - 1), (2**32 - 512, 1024)):  # sums that 32 bits would cut too
            yield {7: entry(place, length)}
        for first, second in (((512, 32), (543, 32)), ((512, 32), (512, 32)), ((600, 200), (620, 40)),
                              ((512, 32256), (32736, 32))):
            yield {0: entry(*first), 1: entry(*second)}
            yield {0: entry(*second), 15: entry(*first)}
        for at in range(24):
            yield {4: entry(512, 32, bytes(at) + b"\1" + bytes(23 - at))}
            yield {4: entry(0, 0, bytes(at) + b"\x80" + bytes(23 - at))}

    def test_19_damage_of_every_kind(self):
        sound = half_of({0: entry(512, 80)}, EXAMPLE + bytes(32176))
        for count, entries in enumerate(self.damaged(), 1):
            for party in (0, 1):
                halves = [sound, half_of(entries)] if party else [half_of(entries), sound]
                memory = bytearray(b"".join(halves))
                self.nothing_goes(memory, (19, 0, 0), party, slot=16, data=b"no record")
                self.nothing_goes(memory, (19, 0, 0), party)
                shelf, other = Shelf(memory), 1 - party  # which sees nothing of it
                self.assertEqual((shelf.get(other, 0), shelf.put(other, NONE)), (EXAMPLE, 1))
                shelf.drop(other, 0)
                self.assertEqual((shelf.put(other, EXAMPLE), memory[32768 * party:][:32768]), (0, half_of(entries)))
        self.assertEqual(count, 3 + 3 + 8 + 8 + 48)

    def test_what_is_no_damage(self):
        for entries in ({0: entry(512, 32)}, {15: entry(32736, 32)}, {3: entry(512, 32256)}, {5: entry(513, 33)}, {},
                        {0: entry(544, 32), 9: entry(512, 32)}, {0: entry(512, 32), 1: entry(576, 32), 2: entry(544, 32)}):
            for filling in (bytes(32256), b"\xff" * 32256):  # what lies in gaps is not judged
                memory = bytearray(b"\xff" * 32768 + half_of(entries, filling))
                for _, get, drop in calls(memory):
                    for slot, known in entries.items():
                        place, length = struct.unpack_from("<2I", known)
                        self.assertEqual(get(1, slot), filling[:length])
                    self.no_get(memory, (22, 0, 0), get, 1, 8)
                    self.same_refusal(memory, (22, 0, 0), lambda: drop(1, 8))

    def test_1_to_5_what_is_not_a_record(self):
        fresh, full = bytearray(65536), bytearray(65536)
        for _ in range(16):
            Shelf(full).put(1, NONE)
        for memory in (fresh, full):  # 20 comes later
            for put, _, _ in calls(memory):
                for data, numbers in FAULTY:
                    self.same_refusal(memory, numbers, lambda: put(1, data))

    def test_20_no_free_slot(self):
        for data, left in ((NONE, 32256 - 16 * 32), (sized(82), 256)):  # with room for more, and without
            memory = bytearray(65536)
            shelf = Shelf(memory)
            self.assertEqual([shelf.put(0, data) for _ in range(16)], list(range(16)))
            for put, get, _ in calls(memory):
                for more in (NONE, EXAMPLE, sized(2048)):
                    self.same_refusal(memory, (20, 0, 0), lambda: put(0, more))
                self.assertEqual(get(0, 15), data)
            self.assertEqual(memory[32768 - left:32768], bytes(left))
            self.assertEqual(shelf.put(1, data), 0)
            shelf.drop(0, 11)
            self.assertEqual(shelf.put(0, data), 11)

    def test_21_no_gap_that_is_long_enough(self):
        memory = bytearray(65536)
        shelf = Shelf(memory)
        for terms in (1343, 2048):  # 32,264 bytes and more never fit
            self.same_refusal(memory, (21, 0, 0), lambda: shelf.put(0, sized(terms)))
        self.assertEqual([shelf.put(0, sized(terms)) for terms in (440, 460, 440)], [0, 1, 2])
        self.assertEqual(memory[:512], half_of({0: entry(512, 10592), 1: entry(11104, 11072), 2: entry(22176, 10592)})[:512])
        for put, _, _ in calls(memory):  # 22,176 and 10,592 are 32,768: the half is full, to its last byte
            self.same_refusal(memory, (21, 0, 0), lambda: put(0, NONE))
        shelf.drop(0, 0)
        shelf.drop(0, 2)
        for put, _, _ in calls(memory):  # two gaps of 10,592 bytes: one more term is too much
            self.same_refusal(memory, (21, 0, 0), lambda: put(0, sized(441)))
        self.assertEqual([shelf.put(0, sized(440)), shelf.put(0, sized(439))], [0, 2])
        self.same_refusal(memory, (21, 0, 0), lambda: shelf.put(0, NONE))  # 24 bytes are left
        self.assertEqual(shelf.put(1, sized(1342)), 0)

    def test_22_an_empty_or_unknown_slot(self):
        memory = bytearray(65536)
        Shelf(memory).put(0, EXAMPLE)
        for put, get, drop in calls(memory):
            for party, slot in ((0, 1), (0, 15), (0, 16), (0, 2**32), (0, 2**64 - 1), (1, 0), (1, 16)):
                for room in (0, 31, 100):  # 11 comes later
                    self.no_get(memory, (22, 0, 0), get, party, slot, room=room)
                self.same_refusal(memory, (22, 0, 0), lambda: drop(party, slot))
            drop(0, 0)
            self.no_get(memory, (22, 0, 0), get, 0, 0)
            self.same_refusal(memory, (22, 0, 0), lambda: drop(0, 0))
            put(0, EXAMPLE)

    def test_11_an_output_that_is_too_short(self):
        memory = bytearray(65536)
        Shelf(memory).put(1, EXAMPLE)
        for _, get, _ in calls(memory):
            for room in (0, 1, 79):
                out = bytearray(b"?" * room)
                self.same_refusal(memory, (11, 0, 0), lambda: get(1, 0, out=out))
                self.assertEqual(out, bytes(room))

    def test_the_reasons(self):
        full = Shelf()
        for _ in range(16):
            full.put(0, NONE)
        for number, reason, call in [
            (18, Reason.NO_SUCH_PARTY, lambda: Shelf().put(2, NONE)),
            (19, Reason.DAMAGED_HALF, lambda: Shelf(bytearray(5)).drop(0, 0)),
            (20, Reason.NO_FREE_SLOT, lambda: full.put(0, NONE)),
            (21, Reason.NO_GAP, lambda: Shelf().put(0, sized(1343))),
            (22, Reason.NO_SUCH_SLOT, lambda: Shelf().get(0, 0)),
        ]:
            with self.assertRaises(Refusal) as caught:
                call()
            self.assertEqual((caught.exception.args, caught.exception.reason), ((number, 0, 0), reason))
            self.assertNotIn("no words", str(caught.exception))


class Parties(unittest.TestCase):
    def setUp(self):
        self.rng = random.Random(f"{SEED} {self.id()}")

    def drawn_bytes(self, length):
        return bytearray(self.rng.choices(range(256), k=length))

    def drawn(self):
        """A call: its name, and the record or the slot. One record in eight is refused."""
        if self.rng.random() < 0.5:
            terms = self.rng.choice((0, 1, 2, 3, 10, 40, 100, 300, self.rng.randrange(1343), 1342, 1343))
            return "put", self.rng.choice(FAULTY)[0] if self.rng.random() < 0.12 else sized(terms)
        return self.rng.choice(("get", "get", "drop")), self.rng.choice((*range(16), 0, 1, 2, 16, 2**64 - 1))

    def expected(self, half, name, given):
        fault = dict(FAULTY).get(given) if name == "put" else None
        return fault or getattr(half, name)(given)

    def test_drawn_calls_of_both(self):
        own, memory, halves = Shelf(), bytearray(65536), [Half(), Half()]
        lent, met = Shelf(memory), set()
        for _ in range(3000):
            party, (name, given) = self.rng.randrange(2), self.drawn()
            answer = self.expected(halves[party], name, given)
            for shelf in (own, lent):
                self.assertEqual(outcome(getattr(shelf, name), party, given), answer)
            self.assertEqual(bytes(memory), b"".join(map(bytes, halves)))
            met.add(answer[0] if isinstance(answer, tuple) else name)
        self.assertEqual(bytes(own), bytes(memory))
        self.assertEqual(met, {"put", "get", "drop", 1, 2, 3, 4, 5, 20, 21, 22})

    def test_the_others_calls_change_nothing(self):
        for party in (0, 1):
            mine = [self.drawn() for _ in range(300)]
            runs = []
            for others in (0, 1, 4):  # none, and as many of the other's between two of mine, each time others
                memory, seen = self.drawn_bytes(65536), []
                shelf = Shelf(memory)
                shelf.clear()
                for name, given in mine:
                    for _ in range(others):
                        other, what = self.drawn()
                        outcome(getattr(shelf, other), 1 - party, what)
                    seen.append((outcome(getattr(shelf, name), party, given), bytes(memory[32768 * party:][:32768])))
                runs.append(seen)
            self.assertEqual(runs[0], runs[1])
            self.assertEqual(runs[0], runs[2])

    def test_the_same_records_and_slots_of_their_own(self):
        shelf = Shelf()
        for terms in range(16):
            self.assertEqual([shelf.put(party, sized(terms)) for party in (1, 0)], [terms, terms])
        self.assertEqual(bytes(shelf)[:32768], bytes(shelf)[32768:])
        for slot in (3, 7):
            shelf.drop(1, slot)
        self.assertEqual([shelf.get(0, slot) for slot in range(16)], [sized(terms) for terms in range(16)])
        self.assertEqual((shelf.put(1, sized(7)), shelf.get(1, 3), shelf.get(0, 3)), (3, sized(7), sized(3)))
        with Refused(self, 20, 0, 0):
            shelf.put(0, sized(7))

    def test_what_is_put_stays_until_it_is_dropped(self):
        shelf = Shelf()
        slot = shelf.put(0, EXAMPLE)
        for _ in range(500):
            party, (name, given) = self.rng.randrange(2), self.drawn()
            if (party, name, given) != (0, "drop", slot):
                outcome(getattr(shelf, name), party, given)
            self.assertEqual(shelf.get(0, slot), EXAMPLE)

    def test_clear_is_of_both_and_of_any_length(self):
        for length in (0, 1, 31, 65535, 65536, 65537, 200000):
            for clear in (lambda memory: Shelf(memory).clear(), fermion.shelf_clear):
                memory = self.drawn_bytes(length)
                self.assertIsNone(clear(memory))
                self.assertEqual(memory, bytes(length))
        shelf = Shelf(bytearray(b"?" * 65536))
        shelf.clear()
        self.assertEqual([shelf.put(party, EXAMPLE) for party in (0, 1, 0, 1)], [0, 0, 1, 1])
        shelf.clear()
        self.assertEqual([outcome(shelf.get, party, 0) for party in (0, 1)], [(22, 0, 0)] * 2)

    def test_threads(self):
        shelf, faults = Shelf(), []

        def keep(party, data):
            for _ in range(300):
                slot = shelf.put(party, data)
                if shelf.get(party, slot) != data:
                    faults.append((party, slot))
                shelf.drop(party, slot)
        threads = [threading.Thread(target=keep, args=(party, sized(60 + each))) for party in (0, 1) for each in range(6)]
        for thread in threads:
            thread.start()
        for thread in threads:
            thread.join()
        self.assertEqual((faults, bytes(shelf)), ([], bytes(65536)))


class Memory(Refusing):
    def kinds(self):
        """Zeros in many kinds of memory that can be written, a shelf long."""
        yield from (bytearray(65536), memoryview(bytearray(65536)), mmap.mmap(-1, 65536), array("Q", [0] * 8192),
                    array("B", bytes(65536)), (ctypes.c_uint8 * 65536)(), ctypes.create_string_buffer(65536))

    def test_every_kind_is_changed_in_place(self):
        expected = Half()
        expected.put(EXAMPLE)
        for memory in self.kinds():
            for put, get, drop in calls(memory):
                self.assertEqual((put(1, EXAMPLE), get(1, 0)), (0, EXAMPLE), type(memory))
                self.assertEqual(bytes(memory), bytes(32768) + bytes(expected), type(memory))
                drop(1, 0)
                self.assertFalse(any(bytes(memory)), type(memory))
            Shelf(memory).put(0, EXAMPLE)
            fermion.shelf_clear(memory)
            self.assertFalse(any(bytes(memory)), type(memory))

    def test_it_is_taken_as_it_stands(self):
        memory = bytearray(range(256)) * 256
        before = bytes(memory)
        shelf = Shelf(memory)
        self.assertEqual((bytes(memory), bytes(shelf)), (before, before))
        self.nothing_goes(memory, (19, 0, 0), 0)
        memory[:] = bytes(65536)  # the caller's still
        self.assertEqual(shelf.put(0, EXAMPLE), 0)
        again = Shelf(memory)
        self.assertEqual((again.get(0, 0), again.put(0, NONE), shelf.get(0, 1)), (EXAMPLE, 1, NONE))

    def test_a_part_of_longer_memory(self):
        room = bytearray(b"?" * (65536 + 14))
        shelf = Shelf(memoryview(room)[7:-7])
        shelf.clear()
        self.assertEqual((shelf.put(0, EXAMPLE), shelf.put(1, sized(1342))), (0, 0))
        shelf.drop(1, 0)
        self.assertEqual((bytes(room[:7]), bytes(room[-7:]), bytes(room[519:599])), (b"?" * 7, b"?" * 7, EXAMPLE))

    @needs_numpy
    def test_arrays_of_numpy(self):
        numpy = importlib.import_module("numpy")
        for memory in (numpy.zeros(65536, numpy.uint8), numpy.zeros((64, 128), numpy.uint64)):
            self.assertEqual((Shelf(memory).put(numpy.int64(1), EXAMPLE), Shelf(memory).get(1, numpy.uint8(0))), (0, EXAMPLE))
            self.assertEqual(memory.tobytes()[33280:33360], EXAMPLE)
        memory = numpy.zeros(65536, numpy.uint8)
        memory.flags.writeable = False
        for wrong in (memory, numpy.zeros(131072, numpy.uint8)[::2]):
            self.assertRaises(TypeError, Shelf, wrong)

    def test_what_cannot_be_written_is_no_memory_for_a_shelf(self):
        with tempfile.TemporaryFile() as file:
            file.write(bytes(65536))
            file.flush()
            mapped = mmap.mmap(file.fileno(), 65536, access=mmap.ACCESS_READ)
        for wrong in (bytes(65536), memoryview(bytes(65536)), mapped, memoryview(bytearray(131072))[::2], 65536, "text",
                      [0] * 65536, object(), Record(EXAMPLE), Shelf()):
            for call in (lambda: Shelf(wrong), lambda: fermion.shelf_clear(wrong), lambda: fermion.shelf_put(wrong, 0, EXAMPLE),
                         lambda: fermion.shelf_drop(wrong, 0, 0)):
                self.assertRaises(TypeError, call)
        self.assertRaises(TypeError, fermion.shelf_clear, None)

    def test_what_can_only_be_read_is_enough_to_get(self):
        shelf = Shelf()
        shelf.put(1, EXAMPLE)
        for kept in (bytes(shelf), memoryview(bytes(shelf))):
            self.assertEqual(fermion.shelf_get(kept, 1, 0), EXAMPLE)
            self.no_get(kept, (22, 0, 0), functools.partial(fermion.shelf_get, kept), 0, 0)
        for wrong in (None, 5, "text", shelf):
            self.assertRaises(TypeError, fermion.shelf_get, wrong, 0, 0)

    def test_wrong_types(self):
        memory = bytearray(65536)
        Shelf(memory).put(1, EXAMPLE)
        before = bytes(memory)
        for put, get, drop in calls(memory):
            for wrong in (5, None, "text", [1], object(), memoryview(EXAMPLE)[::2], Shelf()):
                self.assertRaises(TypeError, put, 1, wrong)
            for wrong in (bytes(100), memoryview(bytes(100)), "text", 100):
                self.assertRaises(TypeError, get, 1, 0, out=wrong)
        self.assertEqual(memory, before)

    def test_parties_and_slots_that_are_no_numbers_of_64_bits(self):
        memory = bytearray(65536)
        for put, get, drop in calls(memory):
            for wrong, error, words in (
                (-1, ValueError, "is -1, not a number of 64 bits"), (2**64, ValueError, "is 18446744073709551616, not a number"),
                (1.0, TypeError, "is 1.0, not a whole number"), (None, TypeError, "is None, not a whole number"),
            ):
                for what, call in (("party", lambda: put(wrong, EXAMPLE)), ("party", lambda: get(wrong, 0)),
                                   ("slot", lambda: get(1, wrong)), ("party", lambda: drop(wrong, 0)),
                                   ("slot", lambda: drop(1, wrong))):
                    with self.assertRaisesRegex(error, f"the {what} {words}"):
                        call()
            self.assertEqual((put(Int64(1), EXAMPLE), get(Int64(1), Int64(0))), (0, EXAMPLE))  # what is whole is a number
            self.assertIsNone(drop(Int64(1), Int64(0)))
        self.assertEqual(memory, bytes(65536))

    def test_what_is_lent_overlaps_nothing_else(self):
        memory = bytearray(65536 + 80)
        memory[65536:] = EXAMPLE
        whole = memoryview(memory)
        shelf = Shelf(whole[:65536])
        shelf.put(0, EXAMPLE)
        before = bytes(memory)
        for call in (lambda: shelf.put(0, whole[512:592]), lambda: shelf.put(1, whole[65500:65580]), lambda: shelf.put(0, whole),
                     lambda: shelf.get(0, 0, out=whole[512:600]), lambda: shelf.get(0, 0, out=whole[65535:]),
                     lambda: fermion.shelf_get(memory, 0, 0, out=memory)):
            with self.assertRaisesRegex(ValueError, "overlaps"):
                call()
        self.assertEqual(bytes(memory), before)
        self.assertEqual((shelf.put(0, whole[65536:]), shelf.get(0, 1, out=whole[65536:])), (1, EXAMPLE))  # side by side

    def test_memory_is_held_no_longer_than_the_call(self):
        memory, data, out = bytearray(65536), bytearray(EXAMPLE), bytearray(100)
        shelf = Shelf(memory)
        for call in (lambda: shelf.put(0, data), lambda: shelf.get(0, 0, out=out), lambda: shelf.get(0, 1, out=out),
                     lambda: shelf.put(2, data), lambda: shelf.put(0, "text"), lambda: shelf.drop(0, 0), shelf.clear,
                     lambda: bytes(shelf), lambda: Shelf(memory)):
            try:
                call()
            except (Refusal, TypeError):
                pass
            for each in (memory, data, out):
                each.append(0)  # a bytearray that is held cannot grow
                del each[-1]
        memory.append(0)
        with Refused(self, 19, 0, 0):
            shelf.put(0, data)

    def test_stored_and_loaded(self):
        shelf = Shelf()
        shelf.put(0, EXAMPLE)
        shelf.put(1, NONE)
        later = Shelf(bytearray(bytes(shelf)))
        self.assertEqual((later.get(0, 0), later.put(1, EXAMPLE)), (EXAMPLE, 1))
        with Refused(self, 22, 0, 0):
            shelf.get(1, 1)  # it is another shelf
        for call in (pickle.dumps, copy.deepcopy):  # a place, not a value
            self.assertRaises(TypeError, call, shelf)
        self.assertNotIn("\\x", repr(shelf))  # no tenant's bytes in a log


if __name__ == "__main__":
    unittest.main()
