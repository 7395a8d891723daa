"""The texts and the numbers of errors, and what is taken as NumPy takes it.

    python3 test_texts.py
"""

import pickle
import random
import unittest
from array import array
from collections import Counter
from itertools import product
from types import SimpleNamespace
from unittest import mock

import ndarray_layout as nd
from ndarray_layout import LayoutError, Slice
from ndarray_layout import _reasons as reasons

CALLS = 20_000


def array_of(shape, strides, itemsize=8):
    """What stands in for an array."""
    return SimpleNamespace(shape=shape, strides=strides, itemsize=itemsize)


ROWS = array_of((3, 4), (32, 8))


class Texts(unittest.TestCase):
    def assert_error(self, text, numbers, call, *arguments, **named):
        with self.assertRaises(LayoutError) as caught:
            call(*arguments, **named)
        self.assertEqual(str(caught.exception), text)
        self.assertEqual(caught.exception.numbers, numbers)

    def test_texts(self):
        bounds = {"index": 9, "length": 5}
        text = "axis 2: index 9 is out of bounds of length 5"
        self.assert_error(text, bounds, nd.place, 0, (2, 3, 5), (15, 5, 1), (1, 2, 9))
        self.assert_error(text, bounds, nd.picked, (2, 3, 5), [1, 2, 9])
        self.assert_error(text, bounds, nd.basic_key, (2, 3, 5), (1, ..., 9))
        text = "axis 0: bound 7 is past length 4, and isn't clamped; clamp=True moves it to the end, as NumPy does"
        self.assert_error(text, {"bound": 7, "length": 4}, nd.picked, (4,), [Slice(0, 7)])
        text = "the product of the lengths that are not 0 is above the limit 2**63 - 1; it is 2**64"
        self.assert_error(text, {"size": 2**64}, nd.default_strides, (2**32, 2**32))
        self.assert_error(text, {"size": 2**64}, nd.windows, 2**62 + 3, 1, 4)
        text = "axis 1: index 4 is past length 3"
        self.assert_error(text, {"index": 4, "length": 3}, nd.split_at, 0, (2, 3), (3, 1), 1, 4)
        text = "the highest place 5 is past a buffer of 5 elements"
        self.assert_error(text, {"highest": 5, "length": 5}, nd.layout_start, (2, 3), (-3, 1), length=5)
        text = (
            "Unsupported: axis 0: two indices may have one place, so it isn't writable: stride 2 isn't past 3, the reach of "
            "the axes with no greater stride (in elements); without writable=True it is only to be read"
        )
        self.assert_error(text, {"stride": 2, "reach": 3}, nd.layout_start, (2, 4), (2, 1), length=9, writable=True)

    def test_numbers_without_64_bits(self):
        self.assert_error("axis 1: length -1 is negative", {"length": -1}, nd.default_strides, (2, -1))
        self.assert_error("axis 0: length 2**64 is past 64 bits", {"length": 2**64}, nd.default_strides, (2**64,))
        self.assert_error("axis 1: index -1 is negative, and isn't counted from the end here", {"index": -1}, nd.place, 0, (2, 3), (3, 1), (0, -1))
        self.assert_error("length -1 is negative", {"length": -1}, nd.layout_start, (2,), (1,), length=-1)
        self.assert_error(
            "axis 0: stride -2**64 is past 64 bits", {"stride": -(2**64)}, nd.has_overlap, (2,), (-(2**64),)
        )
        elems = [None, 1, Slice(0, None, 2**70)]
        self.assert_error("axis 1: step 2**70 is past 64 bits", {"step": 2**70}, nd.picked, (2, 3), elems)
        for call in (nd.default_strides, nd.fortran_strides):
            self.assertRaises(OverflowError, call, (2, -1))

    def test_sizes_of_a_reshape(self):
        """A length that is left open, and sizes that differ beside strides that don't fit."""
        layout = nd.Layout.over(24, (4, 6))
        for shape, axis, text in (
            ((-1, -3), 1, "axis 1: length -3 is negative"),
            ((3, -1, -4), 2, "axis 2: length -4 is negative"),
            ((-1, 3, -1), 2, "axis 2: length -1 is there twice, and only one may be -1"),
            ((3, -2), 1, "axis 1: length -2 is negative"),
        ):
            self.assert_error(text, {"length": shape[axis]}, layout.reshape, shape)
            self.assert_error(text, {"length": shape[axis]}, nd.reshape_without_copy, ROWS, shape)
        text = "IncompatibleShape: axis 0: any length times 0 is the size 0"
        self.assert_error(text, {"size": 0, "others": 0}, nd.Layout.over(0, 0).reshape, (-1, 0))
        text = "IncompatibleShape: axis 0: no length times 5 is the size 24"
        self.assert_error(text, {"size": 24, "others": 5}, layout.reshape, (-1, 5))
        refused = (
            "IncompatibleLayout: axis 1: the new shape joins it to the axis read before it, whose stride isn't length 4 times "
            "stride 6 (in elements); {}"
        )
        text = refused.format("shape (6, 4) can't become (25,) by a copy either: size 24 isn't 25")
        numbers = {"stride": 6, "length": 4, "size": 24, "new_size": 25}
        self.assert_error(text, numbers, nd.reshape, (6, 4), (1, 6), (25,))
        self.assert_error(text, numbers, layout.T.reshape, 25)
        text = refused.format("shape (6, 4) with strides (1, 6) can't become (24,) in order 'C' without a copy, and order='F' can")
        self.assert_error(text, {"stride": 6, "length": 4}, nd.reshape, (6, 4), (1, 6), 24)

    def test_texts_count_bytes(self):
        """What an array says of itself: no axis of bytes, and no unit that wasn't given."""
        counts = {"lengths": 1, "strides": 2}
        text = "IncompatibleLayout: the shape has 1 lengths and the strides have 2, one for each axis is needed"
        self.assert_error(text, counts, nd.share_element, array_of((2,), (8, 8)), 0, 1)
        for strides in ((8, 8), (7, 8)):
            self.assert_error(text, counts, nd.lay_over, 2, strides, itemsize=8, nbytes=64)
        text = "the product of the lengths that are not 0 is above the limit 2**63 - 1; it is 2**65, in bytes"
        numbers = {"size": 2**65, "itemsize": 8}
        self.assert_error(text, numbers, nd.share_element, array_of((2**62,), (0,)), 0, 1)
        text = "the highest place 4 is past a buffer of 4 bytes; the array at offset 1 needs bytes 1 to 4"
        numbers = {"highest": 4, "length": 4, "offset": 1, "lowest": 1, "end": 5, "nbytes": 4}
        self.assert_error(text, numbers, nd.lay_over, (), (), itemsize=4, nbytes=4, offset=1)
        text = "the lowest place, 8 before the start 4, is below 0 (in bytes); the array at offset 4 needs bytes -4 to 15"
        numbers = {"below": 8, "start": 4, "offset": 4, "lowest": -4, "end": 16, "nbytes": 20}
        self.assert_error(text, numbers, nd.lay_over, (3, 2), (-4, 8), itemsize=4, nbytes=20, offset=4)
        for strides, needed in (((-12, 4), 24), ((-14, 4), 26)):
            text = f"the highest place {needed - 1} is past a buffer of 23 bytes; the array needs {needed} bytes"
            numbers = {"highest": needed - 1, "length": 23, "needed": needed, "nbytes": 23}
            self.assert_error(text, numbers, nd.lay_over, (2, 3), strides, itemsize=4, nbytes=23)
        refused = (
            "Unsupported: axis 0: two indices may have one place, so it isn't writable: stride {} isn't past {}, the reach of "
            "the axes with no greater stride (in bytes); without writable=True it is only to be read"
        )
        text = refused.format(3, 3)
        self.assert_error(text, {"stride": 3, "reach": 3}, nd.lay_over, 2, 3, itemsize=4, nbytes=20, writable=True)
        text = refused.format(8, 11)
        self.assert_error(
            text, {"stride": 8, "reach": 11}, nd.lay_over, (2, 2), (8, 8), itemsize=4, nbytes=20, writable=True
        )
        for stride in (8, 9):
            text = f"the highest place {4 * stride} is past a buffer of 20 bytes; the array needs {4 * stride} bytes"
            numbers = {"highest": 4 * stride, "length": 20, "needed": 4 * stride, "nbytes": 20}
            self.assert_error(text, numbers, nd.lay_over, (0, 5), (-400, stride), itemsize=4, nbytes=20)
        self.assert_error("nbytes -1 is negative", {"nbytes": -1}, nd.lay_over, 2, 4, itemsize=4, nbytes=-1)
        text = "axis 0: stride 2**70 is past 64 bits"
        self.assert_error(text, {"stride": 2**70}, nd.lay_over, 2, 2**70, itemsize=4, nbytes=9)
        with self.assertRaisesRegex(TypeError, "nbytes is an integer, not None"):
            nd.lay_over(2, 4, itemsize=4, nbytes=None)
        with self.assertRaisesRegex(TypeError, "offset is an integer, not 2.5"):
            nd.lay_over(2, 4, itemsize=4, nbytes=9, offset=2.5)
        text = "elem_size -1 is negative"
        self.assert_error(text, {"elem_size": -1}, nd.layout_start, 2, 1, elem_size=-1, length=2)

    def test_numbers_count_bytes(self):
        """The bytes that an array needs, beside the bytes of its elements one by one."""
        numbers, seen = random.Random("bytes"), Counter()
        for _ in range(CALLS):
            shape = [numbers.randint(1, 4) for _ in range(numbers.randint(0, 3))]
            unit, itemsize = numbers.choice((1, 4)), numbers.choice((1, 4))
            strides = [unit * numbers.randint(-6, 6) for _ in shape]
            nbytes, offset = numbers.randint(0, 90), numbers.choice((None, numbers.randint(0, 60)))
            places = [sum(map(int.__mul__, index, strides)) for index in product(*map(range, shape))]
            begin = -min(places) if offset is None else offset
            lowest, end = begin + min(places), begin + max(places) + itemsize
            try:
                self.assertEqual(nd.lay_over(shape, strides, itemsize=itemsize, nbytes=nbytes, offset=offset), begin)
                self.assertTrue(0 <= lowest <= end <= nbytes)
                seen["accepted"] += 1
            except IndexError as error:
                self.assertFalse(0 <= lowest <= end <= nbytes and begin <= nbytes)
                past, below = {"highest": end - 1, "length": nbytes}, {"below": begin - lowest, "start": offset}
                if offset is None:
                    expected = {**past, "needed": end, "nbytes": nbytes}
                else:
                    expected = {**(below if lowest < 0 else past), "offset": offset, "lowest": lowest, "end": end, "nbytes": nbytes}
                self.assertEqual(error.numbers, expected)
                seen["refused" + ", of an offset" * (offset is not None)] += 1
        print("test_numbers_count_bytes: " + ", ".join(f"{name} {count}" for name, count in sorted(seen.items())))
        self.assertGreater(min(seen.values()), CALLS // 20)
        self.assertEqual(len(seen), 3)

    def test_no_records(self):
        """No record needs no byte, packed or not."""
        for stride in (8, 7):
            self.assertEqual(nd.lay_over(0, stride, itemsize=4, nbytes=0), 0)
            self.assertEqual(nd.lay_over(0, stride, itemsize=4, nbytes=9, offset=9), 9)

    def test_one_of_many(self):
        """The key, the slice, the axis or the count that an error is of."""
        layout = nd.Layout.over(3, 3)
        text = "Unsupported: region 1: axis 0: the step is 0"
        self.assert_error(text, {"region": 1, "step": 0}, nd.first_conflict, 3, [0, slice(0, 3, 0)])
        text = "slice 1: axis 0: index 3 is out of bounds of length 3"
        self.assert_error(text, {"slice": 1, "index": 3, "length": 3}, layout.first_intersection, [0, 3])
        text = "Unsupported: axis 0: the step is 0"
        self.assert_error(text, {"step": 0}, layout.__getitem__, slice(None, None, 0))
        self.assert_error(text, {"step": 0}, nd.basic_key, 3, (..., slice(None, None, 0)))
        self.assert_error(
            "axis -3: there are 2 axes", {"axis": -3, "axes": 2}, nd.Layout.over(6, (2, 3)).transpose, -3, 0
        )
        text = (
            "Undecided: the regions up to 1 have more than max_parts=1 parts, so nothing was decided; "
            "a greater max_parts takes more memory"
        )
        self.assert_error(text, {"region": 1, "max_parts": 1}, nd.first_conflict, 3, [0, 1], max_parts=1)
        for text, call in (
            ("^region 1: axis 0: 'a' is no basic slice", lambda: nd.first_conflict(3, [0, "a"])),
            ("^slice 1: axis 0: 'a' is no basic slice", lambda: layout.first_intersection([0, "a"])),
            ("^axis 0: slice indices must be integers", lambda: layout["a":]),
            (
                r"^axis 1: slice\(0, 1, None\) is no integer, `nd.Slice` or",
                lambda: nd.picked((3, 3), [0, slice(0, 1)]),
            ),
            ("^axis 0: 'a' is no end", lambda: nd.picked((3, 3), [None, Slice(0, "a"), 0])),
        ):
            self.assertRaisesRegex(TypeError, text, call)
        self.assert_error("axis 0: length -3 is negative", {"length": -3}, nd.basic_key, (-3,), 0)
        self.assertEqual(nd.basic_key(5, 2), [2])

    def test_each_is_a_layout_error(self):
        records = array_of((3,), (7,), 4)
        self.assert_error("no memory for 2**61 places", {"places": 2**61}, nd.places, 0, 2**61, 1)
        text = "IncompatibleLayout: axis 0: stride 7 is no multiple of the item size 4 (in bytes)"
        self.assert_error(text, {"stride": 7, "itemsize": 4}, nd.Layout.of, records)
        text = "Unsupported: the item size 0 isn't above 0"
        self.assert_error(text, {"itemsize": 0}, nd.lay_over, 2, 4, itemsize=0, nbytes=9)
        self.assert_error(text, {"itemsize": 0}, nd.element_strides, (4,), 0)
        text = "BadArgument: order must be 'C' or 'F', not 'K'"
        self.assert_error(text, {}, nd.next_index, (2,), (0,), "K")
        text = "BadArgument: order must be 'C', 'F' or 'A', not 'K'"
        self.assert_error(text, {}, nd.places, 0, (2,), (1,), "K")

    def test_another_kind_says_nothing(self):
        """The status decides: a reason for another kind names no axis, and the text is the status's own."""
        wrong = reasons.Reason("Unsupported", "axis 0: wrong", 0, {"wrong": 1})
        with mock.patch.object(reasons, "of_index", lambda shape, index: wrong):
            with self.assertRaises(IndexError) as caught:
                nd.place(0, (2,), (1,), (2,))
        self.assertEqual((caught.exception.kind, caught.exception.axis), ("OutOfBounds", None))
        self.assertEqual(str(caught.exception), "out of bounds indexing")
        self.assertEqual(caught.exception.numbers, {})

    def test_no_reason_says_nothing(self):
        with mock.patch.object(reasons, "of_index", lambda shape, index: None):
            with self.assertRaises(IndexError) as caught:
                nd.place(0, (2,), (1,), (2,))
        self.assertEqual(str(caught.exception), "out of bounds indexing")

    def test_no_memory_for_a_reason(self):
        """Where the library has no memory to find a reason, the error is the same without numbers."""
        calls = {
            "slice": lambda: nd.picked((3,) * 5, [3] * 5),
            "layout_start": lambda: nd.layout_start((3,) * 5, (1,) * 5, length=2),
            "check_layout": lambda: nd.place(1, (3,) * 5, (-1,) * 5, (3,) * 5),
            "reshape": lambda: nd.reshape((2, 2), (4, 1), (4,)),
            "permuted_axes": lambda: nd.permuted_axes((2, 2), (2, 1), (0, 0)),
            "index": lambda: nd.next_index((3,), (3,)),
            "co_broadcast": lambda: nd.broadcast_shapes((2,), (3,)),
            "broadcast": lambda: nd.broadcast((2,), (1,), (3,)),
            "windows": lambda: nd.windows((4,), (1,), (0,)),
            "exact_chunks": lambda: nd.exact_chunks((4,), (1,), (0,)),
            "split_at": lambda: nd.split_at(0, (3,), (1,), 0, 4),
            "merge_axes": lambda: nd.merge_axes((2, 3), (3, 1), 0, 0),
        }
        find, missing = reasons._find, None

        def out_of_memory(name, *arguments):
            if name == missing:
                raise MemoryError
            return find(name, *arguments)

        for name, call in calls.items():
            missing = name
            with self.subTest(name), self.assertRaises(LayoutError) as known:
                call()
            self.assertTrue(known.exception.numbers or known.exception.axis is not None)
            with self.subTest(name), mock.patch.object(reasons, "_find", out_of_memory):
                with self.assertRaises(type(known.exception)) as caught:
                    call()
                self.assertEqual((caught.exception.kind, caught.exception.axis), (known.exception.kind, None))
                self.assertEqual(caught.exception.numbers, {})
                self.assertNotRegex(caught.exception.text, "[0-9]")
        missing = "layout_start"
        with mock.patch.object(reasons, "_find", out_of_memory):
            self.assert_error("out of bounds indexing", {}, nd.lay_over, 3, 4, itemsize=4, nbytes=9)
            self.assert_error("arithmetic overflow", {}, nd.share_element, array_of((2**62,), (8,)), 0, 1)

    def test_pickles(self):
        with self.assertRaises(IndexError) as caught:
            nd.place(0, (2, 3), (3, 1), (1, 3))
        again = pickle.loads(pickle.dumps(caught.exception))
        self.assertIs(type(again), nd.OutOfBoundsError)
        self.assertEqual((again.kind, again.axis, again.numbers), ("OutOfBounds", 1, {"index": 3, "length": 3}))
        self.assertEqual(str(again), str(caught.exception))


class NotTakenForAnother(unittest.TestCase):
    """What could be read as something else is refused."""

    def assert_refused(self, error, text, call, *arguments, **named):
        with self.assertRaises(error) as caught:
            call(*arguments, **named)
        self.assertEqual(str(caught.exception), text)

    def test_flags(self):
        """A word or a number is neither yes nor no, also where Python takes it for one of them."""
        for wrong in ("false", "", 1, 0, None, []):
            text = f"writable is true or false, not {wrong!r}"
            self.assert_refused(TypeError, text, nd.layout_start, 6, 1, length=6, writable=wrong)
            if wrong is not None:
                self.assert_refused(TypeError, text, nd.Layout.over, 6, 6, writable=wrong)
                self.assert_refused(TypeError, text, nd.Layout, 0, (6,), (1,), length=6, writable=wrong)
            text = f"clamp is true or false, not {wrong!r}"
            self.assert_refused(TypeError, text, nd.picked, 4, [Slice(0, 9)], clamp=wrong)
        self.assertIs(nd.Layout.over(6, 6, writable=True).writable, True)

    def test_order_beside_strides(self):
        for order in "CFcf":
            text = f"BadArgument: the order {order!r} beside strides, which say the order themselves"
            self.assert_refused(nd.ShapeError, text, nd.Layout.over, 6, (2, 3), (3, 1), order=order)
        self.assertEqual(nd.Layout.over(6, (2, 3), (1, 2)), nd.Layout.over(6, (2, 3), order="F"))
        self.assertEqual(nd.Layout.over(7, (2, 3), start=1, order="F").strides, (1, 2))
        self.assertEqual(nd.Layout.over(7, (2, 3), start=1).strides, (3, 1))

    def test_limits(self):
        """A count of steps or of parts isn't negative: NumPy's -1 for 'without end' is `None`."""
        text = "max_work -1 is negative, and `None` is without end"
        layout, windows = nd.Layout.over(6, 6, writable=True), nd.Layout.over(6, 6).windows(2)
        for call, arguments in (
            (nd.share_element, (ROWS, 0, 1)),
            (nd.share_element, (layout, layout)),
            (nd.has_distinct_places, ((4, 3), (1, 1))),
            (layout.has_distinct_places, ()),
            (windows.has_distinct_places, ()),
            (windows.intersects, (0, 1)),
        ):
            self.assert_refused(OverflowError, text, call, *arguments, max_work=-1)
        self.assert_refused(OverflowError, "max_parts -1 is negative", nd.first_conflict, 3, [], max_parts=-1)
        self.assertIsNone(nd.first_conflict(3, [], max_parts=0))

    def test_two_buffers(self):
        """Layouts of two buffers share no element that a number could tell."""
        items, bytes_of_them = nd.Layout.over(array("i", range(10)), 10), nd.Layout.over(40, 40)
        for one, other, text in (
            (nd.Layout.over(10, 10), nd.Layout.over(20, 10), "10 items of size 1, and 20 of size 1"),
            (items, nd.Layout.over(10, 10), "10 items of size 4, and 10 of size 1"),
            (bytes_of_them, items, "40 items of size 1, and 10 of size 4"),
        ):
            text = f"IncompatibleLayout: the layouts are of two buffers: {text}"
            self.assert_refused(nd.ShapeError, text, nd.share_element, one, other)
            self.assert_refused(nd.ShapeError, text, nd.share_element, one[:0], other, max_work=0)
        self.assertTrue(nd.share_element(items, nd.Layout.over(array("f", range(10)), 10)))
        self.assertFalse(nd.share_element(items[::2], items[1::2]))


class AsNumpyTakesThem(unittest.TestCase):
    """Numbers for shapes, and letters for orders."""

    def test_a_number_is_a_shape(self):
        self.assertEqual(nd.default_strides(5), (1,))
        self.assertEqual(nd.layout_start(5, -1, length=5), 4)
        self.assertEqual(nd.reshape((2, 3), (3, 1), 6), (1,))
        self.assertEqual(nd.place(4, 5, -1, 3), 1)
        self.assertRaises(TypeError, nd.default_strides, 5.0)
        self.assertRaises(OverflowError, nd.default_strides, -5)

    def test_orders(self):
        columns, rows, line = ((2, 3), (1, 2)), ((2, 3), (3, 1)), ((3,), (1,))
        for order in ("f", "A", "a"):
            self.assertEqual(nd.places(0, *columns, order), tuple(range(6)))
            self.assertEqual(nd.reshape(*columns, 6, order), (1,))
        for order in ("c", "A", "a"):
            self.assertEqual(nd.places(0, *rows, order), tuple(range(6)))
            self.assertEqual(nd.reshape(*rows, 6, order), (1,))
            self.assertEqual(nd.reshape(*line, (3, 1), order), nd.reshape(*line, (3, 1), "C"))
        self.assertEqual(nd.next_index((2, 3), (0, 2), "f"), (1, 2))
        for wrong in ("K", "", "CF", "Fortran"):
            self.assertRaises(ValueError, nd.reshape, *rows, 6, wrong)


if __name__ == "__main__":
    unittest.main()
