"""Memory that is handed over or lent: read and written where it stands, held no longer than the call, never twice."""
import array
import ctypes
import importlib
import mmap
import tempfile
import tracemalloc
import unittest

import fermion
from common import EXAMPLE, Refused, needs_numpy, one, told
from fermion import Record, Refusal
from fermion import _buffers

LONG = 1 << 22


class Handed(unittest.TestCase):
    def kinds(self, data):
        """The same bytes in many kinds of memory, some of which can only be read."""
        with tempfile.TemporaryFile() as file:
            file.write(data)
            file.flush()
            mapped = [mmap.mmap(file.fileno(), len(data), access=access) for access in (mmap.ACCESS_READ, mmap.ACCESS_WRITE)]
        yield from mapped
        yield from (data, bytearray(data), memoryview(data), memoryview(bytearray(data)), array.array("B", data))
        yield memoryview(b"x" + data + b"y")[1:-1]
        yield (ctypes.c_ubyte * len(data)).from_buffer_copy(data)
        if len(data) % 8 == 0:
            yield array.array("Q", data)

    def test_every_kind_is_read(self):
        a = Record(EXAMPLE)
        for data in self.kinds(EXAMPLE):
            kind = type(data)
            self.assertEqual(fermion.check(data), (2, 2, 2), kind)
            self.assertEqual(fermion.add(data, data), 2 * a, kind)
            self.assertEqual(fermion.commutator(data, a).record, Record.build(2, []), kind)
            self.assertEqual(fermion.adjoint(data), a, kind)
            self.assertEqual(fermion.mat_ortho_projected(data, [1, 2]), [[1, 0], [0, -1]], kind)
            self.assertEqual(bytes(fermion.block(data, 2)).hex(), "0200000000000000", kind)
            self.assertTrue(fermion.report_add(data, array.array("Q", [0] * 201)).accepted, kind)
            self.assertEqual(fermion.export(data), "1 0^ 0_\n-1 1^ 1_\n", kind)
            self.assertEqual(fermion.shelf_put(bytearray(fermion.SHELF), 0, data), 0, kind)
            self.assertEqual(Record(data), a, kind)

    def peak_of_check(self, data):
        tracemalloc.start()
        try:
            with Refused(self, 1, 1, 0):
                fermion.check(data)
            return tracemalloc.get_traced_memory()[1]
        finally:
            tracemalloc.stop()

    def test_no_kind_is_copied(self):
        for data in self.kinds(bytes(LONG)):
            self.assertLess(self.peak_of_check(data), LONG // 8, type(data))

    @needs_numpy
    def test_arrays_of_numpy(self):
        numpy = importlib.import_module("numpy")
        data = numpy.frombuffer(EXAMPLE, numpy.uint8)  # can only be read
        self.assertEqual(fermion.add(data, data.copy()), 2 * Record(EXAMPLE))
        self.assertEqual(fermion.check(numpy.frombuffer(EXAMPLE, numpy.uint64).reshape(5, 2)), (2, 2, 2))
        self.assertLess(self.peak_of_check(numpy.zeros(LONG, numpy.uint8)), LONG // 8)
        self.assertRaises(TypeError, fermion.check, numpy.zeros(160, numpy.uint8)[::2])
        out = numpy.full(83, 255, numpy.uint8)
        fermion.add(data, Record.build(2, []), out=out)
        self.assertEqual(out.tobytes(), EXAMPLE + bytes(3))
        self.assertRaises(TypeError, fermion.add, data, data, out=data)

    def test_what_has_no_bytes(self):
        for wrong in (5, None, "text", [1, 2], object(), memoryview(EXAMPLE)[::2]):
            self.assertRaises(TypeError, fermion.check, wrong)
            self.assertRaises(TypeError, fermion.add, EXAMPLE, wrong)
            self.assertRaises(TypeError, fermion.report_add, wrong, array.array("Q", [0] * 201))
            self.assertRaises(TypeError, Record, wrong) if not isinstance(wrong, memoryview) else None

    def test_memory_is_held_no_longer_than_the_call(self):
        data, out = bytearray(EXAMPLE), bytearray(100)
        fermion.add(data, data, out=out)
        data.append(0)  # a bytearray that is held cannot grow
        out.append(0)
        for call in (lambda: fermion.check(data), lambda: fermion.add(EXAMPLE, data, out=out)):
            try:
                call()
                self.fail("not refused")
            except Refusal:
                data.append(0)
                out.append(0)
        with self.assertRaises(ValueError):
            fermion.mul(EXAMPLE, EXAMPLE, work=out, out=memoryview(out)[1:])
        out.append(0)
        view = memoryview(data)
        view.release()

    def test_empty_memory(self):
        for empty in (b"", bytearray(), memoryview(b""), array.array("B"), array.array("Q")):
            with Refused(self, 1, 1, 0):
                fermion.check(empty)
            with Refused(self, 11, 0, 0) if not isinstance(empty, (bytes, memoryview)) else self.assertRaises(TypeError):
                fermion.add(EXAMPLE, EXAMPLE, out=empty)
            held = _buffers.Held()
            self.assertTrue(held.read(empty)[0] or isinstance(empty, bytes), "a null pointer")
            held.release()
        self.assertTrue(_buffers.place_of(array.array("Q"))[0], "a null pointer")
        self.assertEqual(fermion.mul_cmpnts((1, 0), (1, 0), out=bytearray()), [])


class Lent(unittest.TestCase):
    def test_mapped_memory(self):
        work, out = mmap.mmap(-1, 96), mmap.mmap(-1, 4096)
        work.write(b"\xff" * 96)
        out.write(b"\xff" * 4096)
        answer = fermion.commutator(one(2, (0,), (1,)), one(2, (1,), (0,)), work=work, out=out)
        self.assertEqual(told(answer), (Record(EXAMPLE), 4))
        self.assertEqual((work[:], out[:]), (bytes(96), EXAMPLE + bytes(4016)))
        self.assertEqual(fermion.mul_cmpnts((0, 1), (1, 0), out=out)[1].coeff, -1)
        work.close()
        out.close()

    def test_memory_of_other_items(self):
        out = array.array("Q", [2**64 - 1] * 11)
        fermion.adjoint(EXAMPLE, out=out)
        self.assertEqual(out.tobytes(), EXAMPLE + bytes(8))
        fields = (ctypes.c_uint32 * 20)()
        fermion.adjoint(EXAMPLE, out=fields)
        self.assertEqual(bytes(fields), EXAMPLE)

    def test_what_is_lent_overlaps_nothing_else(self):
        a = one(2, (0,), (0,))
        shared = bytearray(EXAMPLE + bytes(200))
        whole = memoryview(shared)
        before = bytes(shared)
        for call in (
            lambda: fermion.add(whole[:80], a, out=shared), lambda: fermion.sub(a, whole[:80], out=whole[79:]),
            lambda: fermion.adjoint(whole[:80], out=whole[40:]), lambda: fermion.mul(whole[:80], a, work=whole[70:]),
            lambda: fermion.mul(a, whole[:80], work=whole[100:], out=whole[60:100]),
            lambda: fermion.mul(a, a, work=whole[100:], out=whole[:101]), lambda: fermion.commutator(a, a, work=shared, out=shared),
            lambda: fermion.export(whole[:80], out=whole[79:]), lambda: fermion.import_(2, whole[:9], work=whole[8:60]),
            lambda: fermion.import_(2, whole[:9], out=whole[:80]), lambda: fermion.import_(2, "1\n", work=whole[:99], out=whole[98:]),
        ):
            with self.assertRaisesRegex(ValueError, "overlaps"):
                call()
        self.assertEqual(bytes(shared), before)
        self.assertEqual(fermion.add(whole[:80], whole[:80], out=whole[80:160]), 2 * Record(EXAMPLE))  # read twice is no fault
        self.assertEqual(fermion.mul(whole[:80], whole[:80], work=whole[184:], out=whole[80:184]).record,
                         Record(EXAMPLE) ** 2)
        self.assertEqual(bytes(whole[:80]), EXAMPLE)

    def test_what_cannot_be_written(self):
        for wrong in (bytes(100), memoryview(bytes(100)), "text", 100):
            self.assertRaises(TypeError, fermion.add, EXAMPLE, EXAMPLE, out=wrong)
            self.assertRaises(TypeError, fermion.mul, EXAMPLE, EXAMPLE, work=wrong)


if __name__ == "__main__":
    unittest.main()
