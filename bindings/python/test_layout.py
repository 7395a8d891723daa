"""`Layout`: what it accepts, what is made of it, and its arrays and memoryviews, beside the functions and NumPy.

    python3 test_layout.py
"""

import array
import copy
import dataclasses
import itertools
import pickle
import random
import unittest

import ndarray_layout as nd
from ndarray_layout import Layout, Row, ShapeError, Slice

try:
    import numpy as np
except ImportError:
    np = None

LAYOUTS = 20_000
SKIPPED = "NumPy is missing: arrays of layouts are not compared"


def setUpModule():
    if np is None:
        print(SKIPPED)


class Accepted(unittest.TestCase):
    def test_over(self):
        self.assertEqual(Layout.over(6, (2, 3)), Layout(0, (2, 3), (3, 1), length=6))
        self.assertEqual(Layout.over(6, (2, 3), order="F"), Layout(0, (2, 3), (1, 2), length=6))
        self.assertEqual(Layout.over(6, (2, 3), (-3, 1), writable=True), Layout(3, (2, 3), (-3, 1), length=6, writable=True))
        self.assertEqual(Layout.over(9, 3, 2, start=1), Layout(1, (3,), (2,), length=9))
        self.assertEqual(Layout.over(bytearray(24), (4, 6)).length, 24)
        self.assertEqual(Layout.over(array.array("q", range(6)), (2, 3)).length, 6)
        self.assertRaises(IndexError, Layout.over, 5, (2, 3))
        self.assertRaises(IndexError, Layout.over, 6, 3, 2, start=2)
        self.assertRaises(ShapeError, Layout.over, 9, (3, 2), (2, 3), writable=True)
        self.assertRaises(OverflowError, Layout.over, array.array("q", [0]), (1, 3), (1, 2**60))
        self.assertRaises(ValueError, Layout.over, 6, (2, 3), order="A")
        self.assertRaises(TypeError, Layout.over, 6.0, (2, 3))

    def test_every_layout_is_accepted(self):
        """The constructor accepts too: none can be made that leaves its elements."""
        for start, shape, strides, length in ((2, (2,), (1,), 3), (0, (2,), (-1,), 3), (0, (2,), (1, 1), 3)):
            self.assertRaises((IndexError, ShapeError), Layout, start, shape, strides, length=length)
        self.assertRaises(ShapeError, Layout, 0, (3, 2), (2, 3), length=9, writable=True)
        self.assertRaises(TypeError, Layout, 0, (3, 2), (2, 3), 9)
        layout = Layout(0, [2, 3], iter((3, 1)), length=6)
        self.assertEqual((layout.shape, layout.strides), ((2, 3), (3, 1)))
        for field in dataclasses.fields(layout):
            with self.assertRaises(dataclasses.FrozenInstanceError):
                setattr(layout, field.name, 0)
        self.assertRaises(IndexError, dataclasses.replace, layout, length=5)

    def test_copies(self):
        for buffer in (6, memoryview(bytes(48)).cast("d")):
            layout = Layout.over(buffer, (2, 3), (-3, 1))[::-1, 1:]
            for again in (
                copy.copy(layout),
                copy.deepcopy(layout),
                pickle.loads(pickle.dumps(layout)),
                eval(repr(layout)),
            ):
                self.assertEqual(again, layout)
                self.assertEqual(hash(again), hash(layout))

    def test_of(self):
        view = memoryview(array.array("i", range(9)))
        self.assertEqual(Layout.of(view[::-2]), Layout(8, (5,), (-2,), length=9, itemsize=4))
        self.assertEqual(Layout.of(b"abc"), Layout(0, (3,), (1,), length=3))
        self.assertEqual(Layout.of(view.cast("B").cast("i", (3, 3))), Layout(0, (3, 3), (3, 1), length=9, itemsize=4))


class Methods(unittest.TestCase):
    LAYOUT = Layout.over(24, (2, 3, 4), writable=True)

    def test_writable(self):
        for made in (self.LAYOUT[1], self.LAYOUT.T, self.LAYOUT.reshape(-1), self.LAYOUT.slice([0, Slice(), Slice()])):
            self.assertTrue(made.writable)
            self.assertEqual(made.length, 24)
        self.assertFalse(self.LAYOUT.broadcast_to((5, 2, 3, 4)).writable)
        self.assertFalse(self.LAYOUT.has_overlap)
        self.assertTrue(self.LAYOUT.broadcast_to((5, 2, 3, 4)).has_overlap)

    def test_where_nothing_is_said(self):
        """A layout is writable that keeps the no-alias rule, however it is made; as one to be read any is accepted."""
        numbers, seen = random.Random("writable"), {True: 0, False: 0}
        for _ in range(LAYOUTS // 2):
            shape = tuple(numbers.choice((0, 1, 2, 3)) for _ in range(numbers.randint(0, 3)))
            strides = tuple(numbers.choice((0, 1, -1, 2, 3, -4, 6)) for _ in shape)
            keeps = not nd.has_overlap(shape, strides)
            layout = Layout.over(99, shape, strides)
            made = [
                layout,
                Layout.over(99, [*shape], [*strides], start=layout.start),
                Layout(layout.start, shape, strides, length=99),
                Layout(layout.start, [*shape], strides, length=99),
            ]
            if np is not None:
                items = np.zeros(99, "i2")
                array = np.ndarray(shape, "i2", items, 2 * layout.start, [2 * stride for stride in strides])
                made += [Layout.of(array), Layout.of(array, base=items)]
            for one in made:
                self.assertIs(one.writable, keeps, (shape, strides))
                self.assertNotEqual(one.writable, one.has_overlap)
            self.assertIs(Layout.over(99, shape, strides, writable=False).writable, False)
            if keeps:
                self.assertEqual(len({*layout.places()}), layout.size)
                self.assertEqual(Layout.over(99, shape, strides, writable=True), layout)
            else:
                self.assertRaises(ShapeError, Layout.over, 99, shape, strides, writable=True)
            seen[keeps] += 1
        self.assertGreater(min(seen.values()), LAYOUTS // 20)
        self.assertTrue(Layout.over(6, (2, 3)).writable and Layout.over(6, (2, 3), order="F").writable)

    def test_slices(self):
        self.assertEqual(self.LAYOUT[1, ..., ::-2].places(), (15, 13, 19, 17, 23, 21))
        self.assertEqual(self.LAYOUT[:99, None, 1:].shape, (2, 1, 2, 4))
        self.assertRaises(IndexError, lambda: self.LAYOUT[2])
        self.assertRaises(TypeError, lambda: self.LAYOUT[[0]])
        self.assertRaises(TypeError, iter, self.LAYOUT)
        self.assertRaises(IndexError, self.LAYOUT.slice, [Slice(0, 3), Slice(), Slice()])
        self.assertEqual(self.LAYOUT.slice([Slice(0, 3), 0, 0], clamp=True).places(), (0, 12))

    def test_shapes(self):
        self.assertEqual(self.LAYOUT.reshape((4, -1)).shape, (4, 6))
        self.assertEqual(self.LAYOUT.T.reshape(24, order="A").strides, (1,))
        self.assertRaises(ShapeError, self.LAYOUT.T.reshape, 24)
        self.assertEqual(self.LAYOUT.transpose(), self.LAYOUT.T)
        self.assertEqual(self.LAYOUT.transpose(2, 0, 1), self.LAYOUT.permuted_axes((2, 0, 1)))
        self.assertEqual(self.LAYOUT.transpose((-1, 0, 1)).shape, (4, 2, 3))
        self.assertRaises(IndexError, self.LAYOUT.transpose, 3, 0, 1)
        with self.assertRaises(IndexError) as caught:
            self.LAYOUT.transpose(-4, 0, 1)
        self.assertEqual((caught.exception.axis, caught.exception.numbers), (None, {"axis": -4, "axes": 3}))
        self.assertRaises(ShapeError, self.LAYOUT.transpose, 0, 0, 1)
        self.assertEqual(Layout.over(1, ()).transpose().shape, ())
        self.assertEqual((self.LAYOUT.ndim, self.LAYOUT.size), (3, 24))
        self.assertEqual(
            (self.LAYOUT.is_layout_c, self.LAYOUT.is_layout_f, self.LAYOUT.is_contiguous), (True, False, True)
        )

    def test_rows(self):
        self.assertEqual(list(Layout.over(1, ()).rows()), [Row(0, 0, 1)])
        self.assertEqual(list(Layout.over(1, (3, 0)).rows()), [])
        self.assertEqual(list(Layout.over(6, (2, 3)).rows("F")), [Row(0, 3, 2), Row(1, 3, 2), Row(2, 3, 2)])
        self.assertEqual(list(Layout.over(6, (2, 3), order="F").rows("A")), [Row(0, 1, 2), Row(2, 1, 2), Row(4, 1, 2)])
        self.assertRaises(MemoryError, Layout.over(3, 3).broadcast_to((2**61, 1, 3)).rows)
        self.assertRaises(IndexError, nd.rows, 0, (2, 3), (-3, 1))
        self.assertEqual(list(self.LAYOUT[:, ::2, ::-3].rows()), [Row(k, -3, 2) for k in (3, 11, 15, 23)])

    def test_random_layouts(self):
        """Rows have the places, and parts intersect where they share one."""
        numbers = random.Random("layouts")
        for _ in range(2_000):
            shape = [numbers.choice((0, 1, 2, 3, 4, 3)) for _ in range(numbers.randint(0, 3))]
            strides = [numbers.randint(-6, 6) for _ in shape]
            layout = Layout.over(80, shape, strides)
            places = layout.places()
            rows = tuple(row.start + row.stride * k for row in layout.rows() for k in range(row.length))
            self.assertEqual(rows, places)
            self.assertEqual(tuple(layout.place(index) for index in indices(shape)), places)
            keys = [
                tuple(slice(numbers.randint(0, 2), None, numbers.choice((1, 2, -1))) for _ in shape) for _ in range(2)
            ]
            expected = bool(set(layout[keys[0]].places()) & set(layout[keys[1]].places()))
            self.assertIs(layout.intersects(*keys), expected, (layout, keys))


def indices(shape):
    index = None if 0 in shape else (0,) * len(shape)
    while index is not None:
        yield index
        index = nd.next_index(shape, index)


class Rows(unittest.TestCase):
    ITEMS = bytes(range(20))

    def test_places_and_slices(self):
        """The places of a row, and what its slice takes, beside places counted one by one."""
        for start, stride, length in itertools.product(range(10), (-3, -2, -1, 0, 1, 2, 3), range(4)):
            row, expected = Row(start, stride, length), [start + stride * k for k in range(length)]
            if expected and not 0 <= min(expected) <= max(expected) < 20:
                continue
            self.assertEqual(list(row.places()), expected)
            self.assertEqual(len(row.places()), length)
            if stride or length < 2:
                self.assertEqual(list(self.ITEMS[row.as_slice()]), expected, row)
            else:
                self.assertRaises(ShapeError, row.as_slice)
        self.assertEqual(list(self.ITEMS[Row(2, -1, 3).as_slice()]), [2, 1, 0])

    def test_loop(self):
        for layout in (Layout.over(20, (2, 3), (-9, -2)), Layout.over(20, 5).broadcast_to((2, 5))):
            places = [place for row in layout.rows() for place in self.ITEMS[row.as_slice()]]
            self.assertEqual(tuple(places), layout.places())


class Memoryviews(unittest.TestCase):
    ITEMS = array.array("i", range(12))

    def test_out(self):
        layout = Layout.over(self.ITEMS, (3, 4), writable=True)
        self.assertEqual(layout.as_memoryview(self.ITEMS).tolist(), [[0, 1, 2, 3], [4, 5, 6, 7], [8, 9, 10, 11]])
        self.assertEqual(layout[1:].as_memoryview(self.ITEMS).tolist(), [[4, 5, 6, 7], [8, 9, 10, 11]])
        self.assertEqual(layout[1, 2].as_memoryview(self.ITEMS).tolist(), 6)
        self.assertRaises(ShapeError, layout.T.as_memoryview, self.ITEMS)
        self.assertRaises(ShapeError, Layout.over(12, 1).broadcast_to(3).as_memoryview, self.ITEMS)
        self.assertRaises(IndexError, layout.as_memoryview, self.ITEMS[:11])

    def test_one_axis(self):
        for start in range(12):
            for step in (-12, -5, -1, 1, 2, 7, 12):
                expected = list(range(12))[start::step]
                view = Layout.over(12, 12)[start::step].as_memoryview(self.ITEMS)
                self.assertEqual(view.tolist(), expected)
        self.assertEqual(Layout.over(12, 12)[5:5].as_memoryview(self.ITEMS).tolist(), [])

    def test_refusals_say_why(self):
        layout = Layout.over(12, (3, 4))
        for wrong, axis, numbers in (
            (layout.T, 0, {"stride": 1, "wanted": 3}),
            (layout[:, ::2], 0, {"stride": 4, "wanted": 2}),
            (layout[:, :0], 1, {"length": 0}),
        ):
            with self.assertRaises(ShapeError) as caught:
                wrong.as_memoryview(self.ITEMS)
            error = caught.exception
            self.assertEqual((error.kind, error.axis, error.numbers), ("IncompatibleBuffer", axis, numbers))
        with self.assertRaises(ShapeError) as caught:
            Layout.over(12, 1).broadcast_to(3).as_memoryview(self.ITEMS)
        self.assertEqual(caught.exception.numbers, {"stride": 0, "length": 3})
        with self.assertRaisesRegex(ShapeError, "isn't C-contiguous"):
            Layout.over(6, 6).as_memoryview(memoryview(self.ITEMS)[::2])

    def test_there_and_back(self):
        for step in (-5, -1, 2):
            layout = Layout.over(12, 12)[::step]
            view = layout.as_memoryview(self.ITEMS)
            self.assertEqual(Layout.of(view).strides, layout.strides)

    def test_only_to_be_read(self):
        items = array.array("i", range(3))
        self.assertTrue(Layout.over(3, 3, writable=False).as_memoryview(items).readonly)
        Layout.over(3, 3, writable=True).as_memoryview(items)[1] = 9
        self.assertEqual(items.tolist(), [0, 9, 2])


@unittest.skipIf(np is None, SKIPPED)
class Arrays(unittest.TestCase):
    def test_random_arrays(self):
        """The array of a layout is the array that NumPy makes by the same keys."""
        numbers, base = random.Random("arrays"), np.arange(360)
        for _ in range(LAYOUTS):
            shape = numbers.choice(((360,), (2, 180), (3, 4, 30), (5, 6, 12), (2, 3, 5, 12)))
            expected, layout = base.reshape(shape), Layout.over(base, shape, writable=True)
            axes = numbers.sample(range(len(shape)), len(shape))
            expected, layout = expected.transpose(axes), layout.transpose(axes)
            key = tuple(self.entry(numbers, length) for length in expected.shape)
            expected, layout = expected[(*key, ...)], layout[key]
            array = layout.as_array(base)
            self.assertTrue(np.array_equal(array, expected), (shape, axes, key))
            self.assertEqual((array.dtype, array.shape), (expected.dtype, expected.shape))
            if array.size:
                self.assertEqual(array.__array_interface__["data"][0], expected.__array_interface__["data"][0])
                again = Layout.of(array)
                self.assertEqual((again.shape, again.strides), (layout.shape, layout.strides))
                low = array.__array_interface__["data"][0] // 8 - base.__array_interface__["data"][0] // 8
                self.assertEqual(low - again.start, min(layout.places()))

    def entry(self, numbers, length):
        if length and numbers.random() < 0.2:
            return numbers.randint(-length, length - 1)
        return slice(numbers.choice((None, numbers.randint(-9, 9))), None, numbers.choice((None, 2, -1, -3)))

    def test_only_to_be_read(self):
        numbers = np.zeros(3)
        self.assertFalse(Layout.over(3, 3, writable=False).as_array(numbers).flags.writeable)
        self.assertFalse(Layout.over(3, 3, writable=True).broadcast_to((2, 3)).as_array(numbers).flags.writeable)
        Layout.over(3, 3, writable=True).as_array(numbers)[:] = 1
        self.assertEqual(numbers.tolist(), [1, 1, 1])
        self.assertFalse(Layout.over(3, 3, writable=True).as_array(b"abc").flags.writeable)

    def test_arrays_are_read_as_their_memoryviews(self):
        for order, turned in (("C", False), ("F", False), ("C", True)):
            for writable in (True, False):
                whole = np.array(np.arange(24).reshape(2, 3, 4), order=order)
                whole.flags.writeable = writable
                a = whole.transpose(1, 0, 2) if turned else whole
                for layout in (Layout.over(a, (4, 6))[::-1, ::2], Layout.over(20, 20).windows(3), Layout.over(a, ())):
                    made, other = layout.as_array(a), layout.as_array(memoryview(whole))
                    self.assertEqual((made.tolist(), made.dtype, made.strides), (other.tolist(), a.dtype, other.strides))
                    self.assertEqual((made.flags.writeable, other.flags.writeable), (writable and layout.writable,) * 2)
                    self.assertTrue(np.shares_memory(made, other))
        made = Layout.over(6, 6)[::-1].as_array(np.arange(6))
        self.assertEqual(made.tolist(), [5, 4, 3, 2, 1, 0])

    def test_room(self):
        self.assertRaises(IndexError, Layout.over(4, 3).as_array, np.zeros(3))
        self.assertRaises(IndexError, Layout.over(3, 3).as_array, b"abc", dtype=np.int16)
        self.assertEqual(Layout.over(2, 2).as_array(b"\1\0\2\0", dtype="<i2").tolist(), [1, 2])
        self.assertEqual(Layout.over(3, ()).as_array(np.arange(3)).tolist(), 0)
        self.assertEqual(Layout.over(np.int16(6), 6).length, 6)
        self.assertEqual(Layout.over(np.array(6), ()).length, 1)

    def test_of(self):
        a = np.arange(24, dtype=np.int32).reshape(2, 3, 4)
        self.assertEqual(Layout.of(a[::-1, 1:, ::2]), Layout(12, (2, 2, 2), (-12, 4, 2), length=19, itemsize=4))
        self.assertEqual(Layout.of(a[:, :0]).size, 0)
        self.assertRaises(ShapeError, Layout.of, np.broadcast_to(a, (2, 2, 3, 4)), writable=True)
        records = np.zeros(3, [("key", np.int32), ("text", "S3")])
        self.assertRaises(ShapeError, Layout.of, records["key"])
        self.assertEqual(Layout.of(records["key"][:0]).length, 0)

    def test_of_a_view_over_its_base(self):
        """The array of a view's layout over its base is that view, in random orders, signs and parts."""
        numbers, base = random.Random("bases"), np.arange(360)
        for _ in range(LAYOUTS // 10):
            shape = numbers.choice(((360,), (2, 180), (3, 4, 30), (5, 6, 12)))
            whole = base.reshape(shape, order=numbers.choice("CF"))
            view = whole[(..., *(self.entry(numbers, length) for length in shape))]
            for owner in (base, whole, memoryview(base)):
                layout = Layout.of(view, base=owner)
                again = layout.as_array(owner)
                self.assertTrue(np.array_equal(again, view))
                self.assertEqual(layout.length, 360)
                if view.size:
                    self.assertEqual(*(array.__array_interface__["data"][0] for array in (view, again)), layout)
            self.assertEqual(Layout.of(view, base=base).places(), tuple(view.ravel().tolist()))

    def test_of_a_base_of_any_order(self):
        """A base whose axes are in any order has no gaps: its items are counted in the order of memory."""
        numbers = random.Random("orders")
        for _ in range(LAYOUTS // 2):
            shape = [numbers.randint(1, 4) for _ in range(numbers.randint(1, 4))]
            items = np.arange(int(np.prod(shape)))
            base = items.reshape(shape).transpose(numbers.sample(range(len(shape)), len(shape)))
            key = tuple(slice(numbers.choice((None, 1)), None, numbers.choice((1, 2, -1))) for _ in shape)
            layout = Layout.of(base[key], base=base)
            self.assertEqual(layout.length, items.size)
            self.assertEqual(layout.places(), tuple(base[key].ravel().tolist()), (shape, base.strides, key))
            self.assertEqual(layout.as_array(base).tolist(), base[key].tolist())
        with self.assertRaisesRegex(ShapeError, r"in any order of its axes: it has the shape \(3, 2\) and strides of \(8, 48\)"):
            Layout.of(items[:1], base=np.zeros((4, 3), int)[::2].T)

    def test_of_a_base(self):
        a = np.arange(12).reshape(4, 3)
        self.assertEqual(Layout.of(a[2:], base=a), Layout(6, (2, 3), (3, 1), length=12, itemsize=8))
        self.assertEqual(Layout.of(a[2:], base=a, writable=True).as_array(a).tolist(), [[6, 7, 8], [9, 10, 11]])
        self.assertEqual(Layout.of(memoryview(a.ravel())[::-4], base=a), Layout(11, (3,), (-4,), length=12, itemsize=8))
        self.assertRaises(IndexError, Layout.of, a, base=a[1:])
        self.assertRaises(IndexError, Layout.of, a, base=a[:3])
        self.assertRaises(IndexError, Layout.of, a, base=np.zeros((4, 3), int))
        self.assertRaises(ShapeError, Layout.of, a[2:], base=a[::2])
        self.assertRaises(ShapeError, Layout.of, a[2:], base=a.view(np.int32))
        self.assertRaises(ShapeError, Layout.of, np.broadcast_to(a[0], (2, 3)), base=a, writable=True)
        data = np.zeros(50, np.uint8)
        with self.assertRaises(ShapeError) as caught:
            Layout.of(data[3:43].view(np.int64), base=data[:48].view(np.int64))
        self.assertEqual(caught.exception.numbers, {"bytes": 3})

    def test_empty_arrays(self):
        """An empty layout fits over its own array, and over a base of which it is the end."""
        a = np.zeros((5, 3))
        for empty in (a[5:], a[5:, 3:], a[:, :0], a[::-1][:0], np.zeros((0, 4))):
            self.assertEqual(Layout.of(empty).as_array(empty).shape, empty.shape)
            self.assertEqual(Layout.of(empty).length, 0)
            self.assertEqual(Layout.of(empty, base=a).as_array(a).shape, empty.shape)

    def test_buffers_with_gaps(self):
        """Items are counted in memory: an array in another order is taken so, and one with gaps is refused."""
        a = np.arange(6).reshape(2, 3)
        self.assertEqual(Layout.over(a.T, (3, 2)).as_array(a.T).tolist(), [[0, 1], [2, 3], [4, 5]])
        self.assertTrue(np.array_equal(Layout.of(a.T).as_array(a.T), a.T))
        for gaps in (a[::2, ::-1], a[::-1], a[:, ::2], np.arange(4)[::-1], memoryview(b"abc")[::-1]):
            with self.assertRaisesRegex(ShapeError, "isn't contiguous in any order of its axes: it has the shape") as caught:
                Layout.of(gaps).as_array(gaps)
            self.assertEqual(caught.exception.kind, "IncompatibleBuffer")
        with self.assertRaisesRegex(ShapeError, "isn't C-contiguous"):
            Layout.over(6, 6).as_memoryview(a.T)

    def test_no_bytes_become_objects(self):
        """References to objects are taken from objects alone, and bytes never from them."""
        layout, objects = Layout.over(3, 3, writable=True), np.array([1, "b", None], object)
        records = np.zeros(3, [("a", object), ("b", np.int64)])
        for buffer, dtype in (
            (b"\1" * 48, object),
            (np.zeros(3), object),
            (np.zeros(3), [("a", object)]),
            (objects, np.int64),
            (memoryview(objects), np.int64),
            (objects, [("a", object)]),
            (records, object),
        ):
            self.assertRaises(TypeError, layout.as_array, buffer, dtype)
        self.assertEqual(layout.as_array(objects).tolist(), [1, "b", None])
        self.assertEqual(layout.as_array(memoryview(objects), object).tolist(), [1, "b", None])
        self.assertEqual(layout.as_array(records, records.dtype)["a"].tolist(), [0, 0, 0])

    def test_items_of_no_bytes(self):
        nothing = np.zeros(3, "V0")
        for call in (
            lambda: Layout.over(3, 3).as_array(b"abc", "V0"),
            lambda: Layout.over(3, 3).as_array(nothing),
            lambda: Layout.over(3, 3).as_memoryview(nothing),
            lambda: Layout.over(nothing, 3),
            lambda: Layout.of(nothing),
        ):
            self.assertRaises(ShapeError, call)


if __name__ == "__main__":
    unittest.main()
