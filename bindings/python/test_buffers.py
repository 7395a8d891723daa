"""What `Layout` says of buffers and takes of them: that they are held, and which items they may have.

    python3 test_buffers.py
"""

import array
import ctypes
import mmap
import os
import subprocess
import sys
import tempfile
import unittest
import warnings
from pathlib import Path

import ndarray_layout as nd
from ndarray_layout import Layout, ShapeError

try:
    import numpy as np
except ImportError:
    np = None

SKIPPED = "NumPy is missing: arrays over buffers are not tested"

MAPPED = """
import mmap
memory = mmap.mmap(-1, 4096)
array = Layout.over(4096, 4096).as_array(memory)
close = memory.close
"""

SHARED = """
from multiprocessing.shared_memory import SharedMemory
memory = SharedMemory(create=True, size=4096)
memory.unlink()
array = Layout.over(4096, 4096).as_array(memory.buf)
close = memory.close
"""

GROWING = """
memory = bytearray(64)
array = Layout.over(64, 64).as_array(memory)
close = lambda: (memory.extend(bytes(1 << 20)), others.extend(bytes([7]) * 64 for _ in range(1000)))
others = []
"""

READ = """
try:
    close()
except BufferError:
    close = lambda: None
print(array.any())
del array
"""


def run(program):
    """What a program prints: it may end by a fault of memory."""
    lines = f"from ndarray_layout import Layout\n{program}{READ}"
    found = {**os.environ, "PYTHONPATH": str(Path(nd.__file__).parent.parent)}
    return subprocess.run([sys.executable, "-B", "-c", lines], stdout=subprocess.PIPE, text=True, env=found, timeout=600)


@unittest.skipIf(np is None, SKIPPED)
class Held(unittest.TestCase):
    """An array holds its buffer, as `numpy.frombuffer` does: what would move or free it raises `BufferError`."""

    def test_programs(self):
        """Without the hold the first two end by signal 11, and the third reads what others wrote."""
        for program in (MAPPED, SHARED, GROWING):
            with self.subTest(program):
                ended = run(program)
                self.assertEqual((ended.returncode, ended.stdout), (0, "False\n"))

    def test_the_hold_ends_with_the_array(self):
        for view_of in (lambda memory: memory, memoryview, lambda memory: memoryview(memory).cast("i", (4, 4))):
            memory = mmap.mmap(-1, 64)
            made = Layout.over(16, 4, writable=True).as_array(view_of(memory))
            self.assertRaises(BufferError, memory.close)
            part = made[1:]
            del made
            self.assertRaises(BufferError, memory.close)
            part[0] = 9
            del part
            memory.close()

    def test_what_grows(self):
        numbers, columns = array.array("q", range(6)), array.array("d", range(6))
        held = Layout.over(numbers, (2, 3)).as_array(numbers)
        self.assertRaises(BufferError, numbers.append, 6)
        self.assertEqual(held.tolist(), [[0, 1, 2], [3, 4, 5]])
        order_f = memoryview(np.asarray(memoryview(columns)).reshape((2, 3), order="F"))
        held = Layout.over(order_f, (3, 2)).as_array(order_f)
        del order_f
        self.assertRaises(BufferError, columns.append, 6)
        self.assertEqual(held.tolist(), [[0, 1], [2, 3], [4, 5]])

    def test_a_released_view(self):
        """Other views of the memory may be released."""
        memory = bytearray(b"abc")
        view = memoryview(memory)
        held = Layout.over(view, 3).as_array(view)
        view.release()
        self.assertEqual(held.tobytes(), b"abc")
        self.assertRaises(BufferError, memory.clear)
        self.assertRaises(ShapeError, Layout.over(3, 3).as_array, view)

    def test_owners_that_cannot_be_held(self):
        """The page names two whose memory goes without an error. (what is left of it is not read)"""
        items = (ctypes.c_char * 4096)()
        with tempfile.TemporaryFile() as file:
            mapped = np.memmap(file, np.uint8, "w+", shape=4096)
            for buffer, end in ((items, lambda: ctypes.resize(items, 1 << 20)), (mapped, mapped._mmap.close)):
                made = Layout.over(buffer, 4096).as_array(buffer)
                end()
                self.assertEqual(made.shape, (4096,))

    def test_memoryviews(self):
        for layout in (Layout.over(4, 4)[::-2], Layout.over(4, (2, 2)), Layout.over(4, ())):
            memory = mmap.mmap(-1, 4)
            view = layout.as_memoryview(memory)
            self.assertRaises(BufferError, memory.close)
            del view
            memory.close()


@unittest.skipIf(np is None, SKIPPED)
class Items(unittest.TestCase):
    """Items of each dtype, also of those for which the buffer protocol has no format."""

    DTYPES = ("M8[s]", "m8[ns]", [("at", "M8[D]"), ("for", "m8[s]")], [("at", "M8[s]"), ("what", object)])

    def arrays(self):
        for dtype in self.DTYPES:
            for order in "CF":
                items = np.zeros((2, 3), dtype, order)
                items[1, 2] = np.ones((), dtype)
                yield items

    def test_dates(self):
        for items in self.arrays():
            layout = Layout.over(items, (2, 3), writable=True, order="F" if np.isfortran(items) else "C")
            made = layout[::-1, 1:].as_array(items)
            self.assertEqual((made.dtype, made.tolist()), (items.dtype, items[::-1, 1:].tolist()))
            made[1, 0] = items[1, 2]
            self.assertEqual(items[0, 1], items[1, 2])
            self.assertEqual(Layout.of(items[1:], base=items).as_array(items).tolist(), items[1:].tolist())

    def test_dates_are_held(self):
        memory = bytearray(24)
        dates = np.frombuffer(memory, "M8[s]")
        made = Layout.over(dates, 3).as_array(dates)
        del dates
        self.assertRaises(BufferError, memory.clear)
        self.assertEqual(made.astype(int).tolist(), [0, 0, 0])
        self.assertEqual(Layout.over(3, 3).as_array(memory, "M8[s]").dtype, np.dtype("M8[s]"))

    def test_dates_as_other_items(self):
        dates = np.array([1, 2, 3], "M8[s]")
        self.assertEqual(Layout.over(3, 3).as_array(dates, np.int64).tolist(), [1, 2, 3])
        self.assertEqual(Layout.over(6, 6).as_array(dates, np.int32).tolist(), [1, 0, 2, 0, 3, 0])
        mixed = np.zeros(3, self.DTYPES[3])
        for buffer, dtype in ((dates, object), (mixed, np.int64), (mixed, [("a", object), ("b", object)])):
            self.assertRaises(TypeError, Layout.over(3, 3).as_array, buffer, dtype)

    def test_dates_with_gaps(self):
        for items in self.arrays():
            for gaps in (items[::-1], items[:, ::2]):
                with self.assertRaisesRegex(ShapeError, "isn't contiguous in any order of its axes: it has the shape"):
                    Layout.over(2, 2).as_array(gaps)

    def test_items_that_no_memoryview_has(self):
        for items in (np.zeros(3, "M8[s]"), np.zeros(3, [("a", np.int64)])):
            with self.assertRaises(ShapeError) as caught:
                Layout.over(3, 3).as_memoryview(items)
            self.assertEqual(caught.exception.kind, "IncompatibleBuffer")

    def test_formats(self):
        """The dtype of a `memoryview` of an array is the array's."""
        for dtype in (*"?bhilqBHILQefdgFDGO", "c8", "S3", "U2", ">i4", [("a", "<i4"), ("b", "S3")], [("c", "2f8")]):
            items = np.zeros((2, 3), dtype)
            with warnings.catch_warnings():
                warnings.simplefilter("error")
                self.assertEqual(Layout.over(items, 6).as_array(memoryview(items)).dtype, items.dtype)

    def test_formats_of_others(self):
        """The dtype of a buffer without one is that of its format, read as NumPy reads it."""
        records = np.array([(1, b"ab"), (2, b"c")], [("a", "<i4"), ("b", "S3")])
        made = Layout.over(2, 2).as_array(memoryview(records))
        self.assertEqual((made.dtype, made.tolist()), (records.dtype, records.tolist()))

        class Point(ctypes.Structure):
            _fields_ = [("x", ctypes.c_int32), ("y", ctypes.c_float)]

        points = (Point * 2)(Point(1, 2.5), Point(3, 4.5))
        self.assertEqual(Layout.over(points, 2).as_array(points).tolist(), [(1, 2.5), (3, 4.5)])
        longs = (ctypes.c_long * 2)(5, 6)
        self.assertEqual(Layout.over(longs, 2).as_array(longs).tolist(), [5, 6])
        pointers = memoryview(bytes(16)).cast("P")
        self.assertEqual(Layout.over(2, 2).as_array(pointers).tolist(), [0, 0])
        sizes = memoryview(bytes(16)).cast("n")
        self.assertEqual(Layout.over(2, 2).as_array(sizes, np.intp).tolist(), [0, 0])
        with self.assertRaisesRegex(ShapeError, "IncompatibleBuffer: NumPy has no dtype for the format 'n'"):
            Layout.over(2, 2).as_array(sizes)

    def test_formats_of_another_size(self):
        """ctypes says the format of a byte for packed records and for unions, whose dtype is that of their class."""
        fields = [("a", ctypes.c_uint8), ("b", ctypes.c_uint32)]
        packed = type("Packed", (ctypes.Structure,), {"_pack_": 1, "_fields_": fields})
        either = type("Either", (ctypes.Union,), {"_fields_": fields})
        for kind, itemsize in ((packed, 5), (either, 4)):
            items = (kind * 3).from_buffer(bytearray(range(3 * itemsize)))
            with self.assertWarnsRegex(RuntimeWarning, "PEP3118"):  # (NumPy's, of such formats)
                expected = np.asarray(items)
            for buffer in (items, memoryview(items)):
                layout = Layout.over(buffer, 3)
                self.assertEqual((layout.itemsize, layout.format, Layout.of(memoryview(items)).format), (itemsize, None, None))
                with self.assertWarnsRegex(RuntimeWarning, "PEP3118"):
                    made = layout[::-1].as_array(buffer)
                self.assertEqual((made.dtype, made.tolist()), (expected.dtype, expected[::-1].tolist()))
                with self.assertRaisesRegex(ShapeError, f"a memoryview can't have items of the format 'B' of {itemsize} bytes"):
                    layout.as_memoryview(buffer)
            with self.assertWarns(RuntimeWarning), self.assertRaisesRegex(ShapeError, f"no dtype for the format 'B' of {itemsize} bytes"):
                Layout.over(2, 2).as_array(memoryview(items)[1:])  # (NumPy reads whole arrays of ctypes alone)
        bits = type("Bits", (ctypes.Structure,), {"_fields_": [("a", ctypes.c_uint32, 3), ("b", ctypes.c_uint32, 5)]})
        with self.assertWarns(RuntimeWarning), self.assertRaisesRegex(ShapeError, "NumPy has no dtype for the format"):
            Layout.over(2, 2).as_array((bits * 2)())

    def test_items_of_another_size(self):
        """A layout over elements of 8 bytes is one of no other items; that of a count is one of all."""
        numbers = np.arange(6.0)
        for layout in (Layout.over(numbers, 6), Layout.of(numbers), Layout(0, (6,), (1,), length=6, itemsize=8)):
            for call in (layout.as_memoryview, layout.as_array, lambda buffer: layout.as_array(buffer, np.int16)):
                with self.assertRaises(ShapeError) as caught:
                    call(bytearray(48) if call is not layout.as_memoryview else array.array("i", range(12)))
                self.assertEqual((caught.exception.kind, caught.exception.numbers["itemsize"]), ("IncompatibleBuffer", 8))
            self.assertEqual(layout.as_array(numbers.tobytes(), float).tolist(), numbers.tolist())
        with self.assertRaisesRegex(ShapeError, "the layout is over elements of 1 bytes, and the buffer has items of 8"):
            Layout.over(bytes(6), 6).as_array(numbers)
        self.assertEqual(Layout.over(6, 6).as_array(numbers).tolist(), numbers.tolist())

    def test_gaps(self):
        """A buffer with gaps has no layout, as it has no array."""
        for gaps in (np.arange(12)[::2], memoryview(bytes(12))[::-1]):
            for call in (lambda: Layout.over(gaps, 6), lambda: Layout.over(6, 6).as_array(gaps)):
                with self.assertRaisesRegex(ShapeError, "isn't contiguous in any order of its axes") as caught:
                    call()
                self.assertEqual(caught.exception.kind, "IncompatibleBuffer")

    def test_a_dtype_that_nobody_vouches_for(self):
        """Only an array of NumPy's has a dtype, whatever attribute a class has: its bytes become no references."""
        of_bytes = type("OfBytes", (bytearray,), {"dtype": object})(48)
        of_numbers = np.arange(6).view(type("OfNumbers", (np.ndarray,), {"dtype": object}))
        for buffer, dtype in ((of_bytes, np.uint8), (of_numbers, np.int64)):
            self.assertEqual(Layout.over(6, 6).as_array(buffer).dtype, dtype)
            self.assertRaises(TypeError, Layout.over(6, 6).as_array, buffer, object)

    def test_what_numpy_has_not(self):
        """NumPy's own refusals, as errors of this package."""
        for layout in (
            Layout.over(1, (1,) * 70),
            Layout.over(1, 1).broadcast_to(2**62),
            Layout(0, (0, 2**40), (0, 0), length=0).broadcast_to((2**20, 0, 2**40)),
        ):
            with self.assertRaises(ShapeError) as caught:
                layout.as_array(np.zeros(1))
            self.assertEqual(caught.exception.kind, "IncompatibleBuffer")
        with self.assertRaises(ShapeError):
            Layout.over(1, (1,) * 70).as_memoryview(b"a")


if __name__ == "__main__":
    unittest.main()
