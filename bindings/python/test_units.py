"""What strides count: elements, and bytes of an array or with `itemsize`; beside NumPy, and beside the same in elements.

    python3 test_units.py
"""

import inspect
import random
import unittest
from array import array
from collections import Counter
from itertools import product
from types import SimpleNamespace

import ndarray_layout as nd
from ndarray_layout import Layout, LayoutError, Row, ShapeError, Slice, View

try:
    import numpy as np
except ImportError:
    np = None

ARRAYS = 3_000
SKIPPED = "NumPy is missing: what it says of strides in bytes is not compared"


def setUpModule():
    if np is None:
        print(SKIPPED)


def array_of(shape, strides, itemsize):
    """What stands in for an array."""
    return SimpleNamespace(shape=shape, strides=strides, itemsize=itemsize)


def of_both(call, *arguments, at=0, **named):
    """What a call returns of an array, and the same of its numbers with `itemsize`."""
    before, (a, *after) = arguments[:at], arguments[at:]
    found = call(*arguments, **named)
    again = call(*before, a.shape, a.strides, *after, itemsize=a.itemsize, **named)
    return found, again


ROWS = array_of((2, 3), (12, 4), 4)
COLUMNS = array_of((2, 3), (4, 8), 4)
RECORDS = array_of((4, 2), (18, 9), 4)
"""Fields of 4 bytes, in packed records of 9."""


class Worked(unittest.TestCase):
    """Worked rows, by hand."""

    def assert_both(self, expected, call, *arguments, at=0, **named):
        for found in of_both(call, *arguments, at=at, **named):
            self.assertEqual(found, expected)
            self.assertIs(type(found), type(expected))

    def test_questions(self):
        for a, rows, columns, dense in ((ROWS, True, False, True), (COLUMNS, False, True, True), (RECORDS, False, False, False)):
            self.assert_both(rows, nd.is_layout_c, a)
            self.assert_both(columns, nd.is_layout_f, a)
            self.assert_both(dense, nd.is_contiguous, a)
            self.assert_both(False, nd.has_overlap, a)
            self.assert_both(True, nd.has_distinct_places, a)
        point, single = array_of((), (), 8), array_of((1, 4), (999, 8), 8)
        for call in (nd.is_layout_c, nd.is_layout_f, nd.is_contiguous):
            self.assert_both(True, call, point)
            self.assert_both(True, call, single)
        halves = array_of((3,), (2,), 4)  # (each begins within the one before)
        self.assert_both(True, nd.has_overlap, halves)
        self.assert_both(False, nd.has_distinct_places, halves)
        self.assert_both(False, nd.is_contiguous, halves)
        self.assertFalse(nd.has_overlap((3,), (2,)))
        apart = array_of((3, 2), (16, 24), 8)
        self.assert_both(True, nd.has_distinct_places, apart, max_work=100)
        self.assert_both(False, nd.has_distinct_places, array_of((3, 2), (16, 20), 8), max_work=100)

    def test_places(self):
        self.assert_both(20, nd.place, 0, ROWS, (1, 2), at=1)
        self.assert_both(30, nd.place, 3, RECORDS, (1, 1), at=1)
        self.assert_both((0, 4, 8, 12, 16, 20), nd.places, 0, ROWS, at=1)
        self.assert_both((0, 4, 8, 12, 16, 20), nd.places, 0, COLUMNS, at=1, order="F")
        self.assert_both((0, 4, 8, 12, 16, 20), nd.places, 0, COLUMNS, at=1, order="A")
        self.assertEqual(nd.places(0, COLUMNS, "A"), nd.places(0, COLUMNS, order="F"))
        self.assertEqual([*nd.rows(8, ROWS)], [Row(8, 4, 3), Row(20, 4, 3)])
        self.assertEqual([*nd.rows(8, (2, 3), (12, 4), itemsize=4)], [Row(8, 4, 3), Row(20, 4, 3)])
        self.assertEqual([*nd.rows(8, ROWS, "F")], [Row(8, 12, 2), Row(12, 12, 2), Row(16, 12, 2)])
        self.assertEqual([*nd.joined_rows(8, ROWS)], [Row(8, 4, 6)])
        self.assertEqual([*nd.joined_rows(8, (2, 3), (16, 4), itemsize=4)], [Row(8, 4, 3), Row(24, 4, 3)])
        self.assertEqual([*nd.joined_rows(8, array_of((1, 1), (5, 7), 4))], [Row(8, 4, 1)])
        self.assertEqual([*nd.joined_rows(8, COLUMNS, "A")], [Row(8, 4, 6)])
        self.assertEqual([*nd.joined_rows(0, RECORDS)], [Row(0, 9, 8)])

    def test_accepted(self):
        backwards = array_of((2, 3), (-12, 4), 4)
        self.assert_both(12, nd.layout_start, backwards, length=24)
        self.assertEqual(nd.lay_over(backwards, nbytes=24), 12)
        self.assertEqual(nd.lay_over(backwards, nbytes=30, offset=14, writable=True), 14)
        self.assert_both(None, nd.check_layout, 12, backwards, at=1, length=24, writable=True)
        for call in (nd.layout_start, nd.lay_over):
            length = "nbytes" if call is nd.lay_over else "length"
            with self.assertRaisesRegex(IndexError, "^the highest place 23 is past a buffer of 23 bytes; the array needs 24 bytes$"):
                call(backwards, **{length: 23})
        with self.assertRaisesRegex(IndexError, r"^the lowest place, 12 before .* \(in bytes\); the array at offset 8 needs bytes -4 to 19$"):
            nd.check_layout(8, backwards, length=24)
        with self.assertRaisesRegex(ShapeError, "^BadArgument: elem_size 4 beside an itemsize$"):
            nd.layout_start((2, 3), (12, 4), elem_size=4, itemsize=4, length=24)
        with self.assertRaisesRegex(ShapeError, "^BadArgument: elem_size 4 beside an itemsize$"):
            nd.check_layout(0, ROWS, elem_size=4, length=24)

    def test_shapes(self):
        self.assert_both((4,), nd.reshape, ROWS, 6)
        self.assert_both((4, 12), nd.reshape, COLUMNS, (3, 2), order="A")
        self.assert_both((18, 4, 9), nd.reshape, RECORDS, (4, 1, 2))
        self.assert_both((9,), nd.reshape, RECORDS, 8)
        self.assertEqual(nd.reshape(COLUMNS, (3, 2), "A"), (4, 12))
        self.assert_both((0, 12, 4), nd.broadcast, ROWS, (5, 2, 3))
        self.assert_both(((1, 6), (12, 4)), nd.merge_axes, ROWS, 0, 1)
        self.assert_both(None, nd.merge_axes, COLUMNS, 0, 1)
        self.assert_both(((3, 2), (4, 12)), nd.permuted_axes, ROWS, (1, 0))
        self.assert_both(((1, 2, 2, 2), (12, 4, 12, 4)), nd.windows, ROWS, (2, 2))
        self.assert_both(((2, 3, 1, 1), (12, 4, 12, 4)), nd.exact_chunks, ROWS, (1, 1))
        self.assert_both((View(8, (2, 1), (12, 4)), View(12, (2, 2), (12, 4))), nd.split_at, 8, ROWS, 1, 1, at=1)
        self.assert_both(View(28, (3,), (-4,)), nd.slice_view, 8, ROWS, [1, Slice(step=-1)], at=1)
        self.assert_both(View(20, (2,), (4,)), nd.slice_view, 8, ROWS, [1, Slice(0, 2)], at=1, clamp=True)

    def test_others_are_as_before(self):
        """A shape of an array of integers is a list of lengths where strides are given, by position and by name."""
        lists = [((2, 3), (3, 1), 6)]
        if np:
            lists.append((np.array([2, 3]), np.array([3, 1]), np.array([6])))
        for shape, strides, other in lists:
            self.assertEqual(nd.reshape(shape, strides, other), (1,))
            self.assertEqual(nd.reshape(shape, strides, other, "C"), (1,))
            self.assertEqual(nd.reshape(shape, strides, new_shape=other), (1,))
            self.assertEqual(nd.reshape(shape, strides=strides, new_shape=other, order="C"), (1,))
            self.assertEqual(nd.places(0, shape, strides, "C"), tuple(range(6)))
            self.assertEqual(nd.places(start=0, shape=shape, strides=strides), tuple(range(6)))
            self.assertTrue(nd.is_layout_c(shape, strides))
            self.assertTrue(nd.has_distinct_places(shape, strides, 10))
            self.assertEqual(nd.layout_start(shape, strides, length=6), 0)
            self.assertEqual(nd.slice_view(0, shape, strides, (1, 1), False), View(4, (), ()))


CALLS = {
    nd.layout_start: ((), {"length": 99}),
    nd.check_layout: ((), {"length": 99}),
    **{call: ((), {}) for call in (nd.has_overlap, nd.has_distinct_places, nd.is_contiguous, nd.is_layout_c, nd.is_layout_f)},
    **{call: ((), {}) for call in (nd.places, nd.rows, nd.joined_rows)},
    nd.place: (((0, 0),), {}),
    nd.slice_view: (((0, 0),), {}),
    nd.broadcast: (((2, 3),), {}),
    nd.merge_axes: ((0, 1), {}),
    nd.reshape: (((3, 2),), {}),
    **{call: (((1, 1),), {}) for call in (nd.windows, nd.exact_chunks)},
    nd.permuted_axes: (((1, 0),), {}),
    nd.split_at: ((0, 0), {}),
    nd.lay_over: ((), {"nbytes": 99}),
}
"""Each call that takes a shape and strides, with its other arguments."""


def start_of(call):
    return (0,) if "start" in inspect.signature(call).parameters else ()


class EachCall(unittest.TestCase):
    def test_the_table_has_each(self):
        functions = [getattr(nd, name) for name in nd.__all__ if inspect.isroutine(getattr(nd, name))]
        takes = {call for call in functions if {"shape", "strides"} <= {*inspect.signature(call).parameters}}
        self.assertEqual(takes, {*CALLS})

    def test_arrays(self):
        """An array, a buffer and a `Layout` stand in the place of the shape and strides of each call."""
        buffer = array("i", range(6))
        arrays = [ROWS, memoryview(buffer).cast("B").cast("i", (2, 3)), Layout.over(buffer, (2, 3))]
        if np:
            arrays += [np.zeros((2, 3), "i4"), np.zeros((2, 3), "i4").view(np.matrix)]
        for call, (others, named) in CALLS.items():
            start = start_of(call)
            expected = call(*start, (2, 3), (12, 4), *others, **named, itemsize=4)
            expected = [*expected] if call in (nd.rows, nd.joined_rows) else expected
            for a in arrays:
                found = call(*start, a, *others, **named)
                self.assertEqual([*found] if call in (nd.rows, nd.joined_rows) else found, expected, call.__name__)

    def test_no_arrays(self):
        for call, (others, named) in CALLS.items():
            start = start_of(call)
            for wrong in ((2, 3), 5, None, "ab", object()):
                with self.assertRaises(TypeError, msg=call.__name__):
                    call(*start, wrong, *others, **named)
            with self.assertRaises(TypeError):
                call(*start, ROWS, *others, **named, itemsize=4)
            with self.assertRaises(TypeError):
                call(*start)
            with self.assertRaises(TypeError):
                call()
        with self.assertRaisesRegex(TypeError, "missing a required argument: 'new_shape'"):
            nd.reshape((2, 3), strides=(3, 1))
        with self.assertRaisesRegex(TypeError, r"^array: \(2, 3\) has no shape, strides and itemsize, and no strides are given beside it$"):
            nd.reshape((2, 3), 6)

    def test_units_of_errors(self):
        """Counts that differ and spans past the limit, of bytes and of elements."""
        far = (2**62, 2**62)
        for call, (others, named) in CALLS.items():
            start, unit = start_of(call), {} if call is not nd.lay_over else {"itemsize": 1}
            for array_form in (False, True):
                if array_form:
                    arguments = (*start, array_of((2, 3), far, 4), *others)
                else:
                    arguments = (*start, (2, 3), far, *others)
                with self.assertRaises(OverflowError, msg=call.__name__) as caught:
                    call(*arguments, **named, **({} if array_form else unit))
                text = "bytes" if array_form or unit else "elements"
                self.assertRegex(str(caught.exception), rf"^the span is above the limit 2\*\*63 - 1 \(in {text}\); it is \d+$")
            wrong = (*start, array_of((2, 3), (4,), 4), *others)
            with self.assertRaisesRegex(ShapeError, "the shape has 2 lengths and the strides have 1, one", msg=call.__name__):
                call(*wrong, **named)

    def test_texts(self):
        for text, named in (("elements", {}), ("bytes", {"itemsize": 1})):
            with self.assertRaisesRegex(ShapeError, rf"axis 1: .* isn't length 2 times stride 12 \(in {text}\);"):
                nd.reshape((2, 2), (12, 12), 4, **named)
            with self.assertRaisesRegex(ShapeError, rf"stride 2 isn't past 2, the reach of the axes .* \(in {text}\)"):
                nd.layout_start((2, 2), (2, 2), length=99, writable=True, **named)
        for text, named in (("elements", {}), ("bytes", {"itemsize": 2})):
            with self.assertRaisesRegex(IndexError, rf"^the lowest place, 4 before the start 1, is below 0 \(in {text}\)$"):
                nd.place(1, (3,), (-2,), (0,), **named)
            with self.assertRaisesRegex(IndexError, rf"^the highest place, 2 after the start \d+, is above the limit .* \(in {text}\)$"):
                nd.place(2**63 - 2, (3,), (1,), (0,), **named)
            with self.assertRaisesRegex(ShapeError, rf"strides \(1, 1\) in {text} may have one place twice"):
                nd.has_distinct_places((4, 3), (1, 1), 0, **named)
        with self.assertRaisesRegex(OverflowError, r" is above the limit 2\*\*63 - 1; it is 2\*\*64, in bytes$"):
            nd.is_layout_c((2**62,), (0,), itemsize=4)

    def test_item_sizes(self):
        for call, (others, named) in CALLS.items():
            for wrong, error in ((0, ShapeError), (-4, ShapeError), (2**64, OverflowError), (True, TypeError), (4.0, TypeError)):
                with self.assertRaises(error, msg=call.__name__):
                    call(*start_of(call), (2, 3), (12, 4), *others, **named, itemsize=wrong)
                a = array_of((2, 3), (12, 4), wrong)
                with self.assertRaises(error, msg=call.__name__):
                    call(*start_of(call), a, *others, **named)


class Layouts(unittest.TestCase):
    """The strides of a `Layout` count elements, also where it stands for an array."""

    def setUp(self):
        self.layout = Layout.over(array("i", range(24)), (4, 6))

    def test_byte_strides(self):
        self.assertEqual(self.layout.byte_strides, (24, 4))
        self.assertEqual(self.layout[::-1, ::2].byte_strides, (-24, 8))
        self.assertEqual(Layout.over(24, (4, 6)).byte_strides, (6, 1))
        self.assertEqual(Layout.over(8, ()).byte_strides, ())
        if np:
            self.assertEqual(self.layout.T.byte_strides, self.layout.T.as_array(np.zeros(24, "i4")).strides)
        with self.assertRaises(AttributeError):
            self.layout.byte_strides = (24, 4)

    def test_as_an_array(self):
        layout = self.layout
        self.assertTrue(nd.is_layout_c(layout))
        self.assertEqual(nd.reshape(layout, 24), (4,))
        self.assertEqual(nd.reshape_without_copy(layout, 24), nd.Reshaped("C", (4,)))
        self.assertFalse(nd.share_element(layout, 0, 1))
        self.assertFalse(nd.share_element(layout, (..., 0), (..., slice(1, None))))
        self.assertTrue(nd.share_element(layout, 0, (..., 0)))
        self.assertEqual(Layout.of(layout[::2]), Layout(0, (2, 6), (12, 1), length=18, itemsize=4))
        self.assertEqual((Layout.of(layout).itemsize, Layout.of(layout).format), (4, "i"))


@unittest.skipIf(np is None, SKIPPED)
class BesideNumPy(unittest.TestCase):
    """Random arrays: any axes, steps and item sizes, and strides that are no multiples of these."""

    def setUp(self):
        self.numbers, self.seen = random.Random(self.id()), Counter()
        self.base = np.zeros(4_000, np.uint8)
        self.address = self.base.__array_interface__["data"][0]

    def arrays(self):
        """Arrays over the base with their offsets there."""
        numbers = self.numbers
        for _ in range(ARRAYS):
            shape = [numbers.choice((1, 2, 3, 4)) for _ in range(numbers.randint(0, 3))]
            dtype = np.dtype(numbers.choice(("u1", "i4", "f8", "V3", [("a", "u1"), ("b", "f8")])))
            a = self.base[8 : 8 + 64 * dtype.itemsize].view(dtype)
            a = a[: int(np.prod(shape))].reshape(shape, order=numbers.choice("CF"))
            if numbers.random() < 0.2:
                a = np.lib.stride_tricks.as_strided(a, shape, [numbers.choice((1, 3, 8, 9, 24, 40)) for _ in shape])
            a = a[(..., *(slice(None, None, numbers.choice((1, 1, 2, -1))) for _ in shape))]
            a = a["b"] if dtype.names else a
            yield a, self.offset(a)

    def offset(self, a):
        return a.__array_interface__["data"][0] - self.address

    def longer(self, a, strides):
        return [stride for length, stride in zip(a.shape, strides) if length > 1]

    def same(self, call, a, *others, at=0, before=()):
        one, other = of_both(call, *before, a, *others, at=at)
        self.assertEqual(one, other)
        return one

    def test_questions(self):
        for a, start in self.arrays():
            self.assertEqual(self.same(nd.is_layout_c, a), a.flags.c_contiguous)
            self.assertEqual(self.same(nd.is_layout_f, a), a.flags.f_contiguous)
            places = [start + sum(map(int.__mul__, index, a.strides)) for index in product(*map(range, a.shape))]
            each_byte = {place + byte for place in places for byte in range(a.itemsize)}
            is_distinct = len(each_byte) == len(places) * a.itemsize
            is_dense = is_distinct and max(each_byte) - min(each_byte) + 1 == len(each_byte)
            self.assertEqual(self.same(nd.has_distinct_places, a), is_distinct)
            self.assertEqual(self.same(nd.is_contiguous, a), is_dense)
            self.assertEqual(self.same(nd.has_overlap, a), nd.has_overlap((*a.shape, a.itemsize), (*a.strides, 1)))
            self.assertEqual(self.same(nd.places, a, before=(start,), at=1), tuple(places))
            for rows in (nd.rows, nd.joined_rows):
                found = [place for row in rows(start, a) for place in row.places()]
                self.assertEqual(found, places)
            self.seen["distinct" if is_distinct else "not distinct"] += 1
        self.assertGreater(min(self.seen["distinct"], self.seen["not distinct"]), ARRAYS // 20)

    def test_views(self):
        for a, start in self.arrays():
            index = tuple(self.numbers.randrange(length) for length in a.shape)
            self.assertEqual(self.same(nd.place, a, index, before=(start,), at=1), self.offset(a[(*index, ...)]))
            order = self.numbers.sample(range(a.ndim), a.ndim)
            self.assertEqual(self.same(nd.permuted_axes, a, order), (a.transpose(order).shape, a.transpose(order).strides))
            target = (2, *(3 if length == 1 else length for length in a.shape))
            wide = np.broadcast_to(a, target)
            self.assertEqual(self.longer(wide, self.same(nd.broadcast, a, target)), self.longer(wide, wide.strides))
            window = tuple(self.numbers.randint(1, length) for length in a.shape)
            moved = np.lib.stride_tricks.sliding_window_view(a, window)
            self.assertEqual(self.same(nd.windows, a, window), (moved.shape, moved.strides))
            key = tuple(slice(self.numbers.randint(0, length - 1), None, self.numbers.choice((1, 2))) for length in a.shape)
            part = a[(*key, ...)]
            view = self.same(nd.slice_view, a, nd.basic_key(a.shape, key), before=(start,), at=1)
            self.assertEqual((view.start, view.shape), (self.offset(part), part.shape))
            self.assertEqual(self.longer(part, view.strides), self.longer(part, part.strides))
            if a.ndim:
                cut = self.numbers.randint(0, a.shape[0])
                first, second = self.same(nd.split_at, a, 0, cut, before=(start,), at=1)
                self.assertEqual((first.shape, second.shape), (a[:cut].shape, a[cut:].shape))
                if cut < a.shape[0]:
                    self.assertEqual(second.start, self.offset(a[cut:]))

    def test_shapes(self):
        for a, start in self.arrays():
            lens = [*a.shape, 1]
            self.numbers.shuffle(lens)
            shape = self.numbers.choice((tuple(lens), a.size, (a.size, 1)))
            order = self.numbers.choice("CFA")
            expected = a.reshape(shape, order=order)
            try:
                found = nd.reshape(a, shape, order)
                self.assertEqual(found, nd.reshape(a.shape, a.strides, shape, order, itemsize=a.itemsize))
                self.assertEqual(self.longer(expected, found), self.longer(expected, expected.strides))
                self.seen["views"] += 1
            except ShapeError:
                self.assertFalse(np.may_share_memory(a, expected))
                self.seen["copies"] += 1
            self.assertEqual(nd.lay_over(a, nbytes=4_000, offset=start), start)
            below = -sum(min(0, (length - 1) * stride) for length, stride in zip(a.shape, a.strides))
            self.assertEqual(of_both(nd.layout_start, a, length=4_000), (below, below))
        self.assertGreater(min(self.seen["views"], self.seen["copies"]), ARRAYS // 50)


if __name__ == "__main__":
    unittest.main()
