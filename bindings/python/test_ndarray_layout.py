"""Tests of `ndarray_layout`: worked rows with values by hand, bad arguments, and the examples of the docstrings.

    python3 test_ndarray_layout.py
"""

import copy
import doctest
import importlib
import multiprocessing
import pickle
import pkgutil
import unittest
from types import SimpleNamespace
from unittest import mock

import ndarray_layout as nd
from ndarray_layout import Reshaped, ShapeError, Slice, View

MAX, MIN = 2**63 - 1, -(2**63)
ALL = Slice()
SECONDS = 600


def load_tests(loader, tests, pattern):
    """Adds the examples of the docstrings."""
    parts = [importlib.import_module(f"{nd.__name__}.{part.name}") for part in pkgutil.iter_modules(nd.__path__)]
    for module in (nd, *parts):
        tests.addTests(doctest.DocTestSuite(module, extraglobs={name: getattr(nd, name) for name in ("Layout", "Slice", "first_conflict", "rows", "waves")}))
    return tests


class Case(unittest.TestCase):
    def assert_kind(self, kind, call, *arguments, **named):
        """The call raises a `ShapeError` of a kind."""
        with self.assertRaises(ShapeError) as caught:
            call(*arguments, **named)
        self.assertEqual(caught.exception.kind, kind)


class WorkedRows(Case):
    def of_four(self, elem, clamp=False):
        """The places of a slice of four elements."""
        return nd.places(*nd.slice_view(0, (4,), (1,), [elem], clamp=clamp))

    def test_slices(self):
        self.assertEqual(nd.slice_view(0, (4,), (1,), [Slice(1, None, -2)]), View(3, (2,), (-2,)))
        self.assertEqual(self.of_four(Slice(1, None, -2)), (3, 1))
        self.assertEqual(nd.slice_view(0, (4,), (1,), [Slice(4)]), View(0, (0,), (0,)))
        self.assertEqual(self.of_four(Slice(3, 1)), ())
        self.assertEqual(self.of_four(Slice(-9, 9, -2), clamp=True), (3, 1))
        self.assertEqual(self.of_four(-1), (3,))
        self.assertRaises(IndexError, self.of_four, Slice(5, 2))
        self.assertRaises(IndexError, self.of_four, 4, clamp=True)
        self.assert_kind("Unsupported", self.of_four, Slice(0, 0, 0))
        self.assertRaises(IndexError, self.of_four, Slice(9, 0, 0))
        self.assert_kind("IncompatibleShape", nd.slice_view, 0, (4, 5), (5, 1), [ALL])
        three = nd.slice_view(0, (2, 3, 4), (12, 4, 1), [ALL, Slice(1, None, -1), Slice(0, 4, 2)])
        self.assertEqual(three[1:], ((2, 2, 2), (12, -4, 2)))
        self.assertEqual(nd.places(*three), (8, 10, 4, 6, 20, 22, 16, 18))
        five = nd.slice_view(0, (2, 3, 1, 4, 2), (24, 8, 8, 2, 1), [1, Slice(2, None, -2), 0, None, ALL, -1])
        self.assertEqual(five, View(41, (1, 1, 4), (0, 0, 2)))

    def test_layouts(self):
        self.assertRaises(IndexError, nd.layout_start, (0, 2), (2, 1), length=0, writable=True)
        self.assertEqual(nd.layout_start((0, 2), (2, 1), length=1, writable=True), 0)
        self.assertEqual(nd.layout_start((), (), length=1), 0)
        self.assertRaises(IndexError, nd.layout_start, (), (), length=0)
        self.assert_kind("Unsupported", nd.layout_start, (3, 2), (2, 3), length=8, writable=True)
        self.assertEqual(nd.layout_start((3, 2), (2, 3), length=8), 0)
        self.assertRaises(OverflowError, nd.layout_start, (1, MAX, 2), (1, 1, 1), length=MAX)
        self.assertRaises(OverflowError, nd.layout_start, (3,), (1,), length=3, elem_size=MAX)
        self.assertEqual(nd.layout_start((1, 2), (MIN, 1), length=2, writable=True), 0)
        self.assert_kind("IncompatibleLayout", nd.layout_start, (2,), (1, 1), length=9)
        self.assertTrue(nd.has_overlap((3, 2), (2, 3)))
        self.assertTrue(nd.is_contiguous((2, 1), (1, MIN)))
        self.assertFalse(nd.is_contiguous((0, 2), (9, 9)))
        self.assertEqual(nd.default_strides((2, 0)), (0, 0))
        self.assertRaises(OverflowError, nd.default_strides, (2**40, 2**40, 0))

    def test_places(self):
        self.assertEqual(nd.places(0, (3, 2), (2, 3)), (0, 3, 2, 5, 4, 7))
        self.assertEqual(nd.places(3, (2, 3), (-3, 1), order="F"), (3, 0, 4, 1, 5, 2))
        self.assertEqual(nd.places(7, (), ()), (7,))
        self.assertEqual(nd.place(0, (), (), ()), 0)
        self.assertRaises(IndexError, nd.place, 0, (2, 3), (3, 1), (2, 0))
        self.assertRaises(IndexError, nd.places, 0, (2,), (-1,))
        self.assertRaises(MemoryError, nd.places, 0, (MAX,), (0,))
        self.assertIsNone(nd.next_index((), ()))
        self.assertRaises(IndexError, nd.next_index, (2,), (2,))

    def test_intersections(self):
        ninth, sixth = [ALL, Slice(0, None, 9)], [ALL, Slice(3, None, 6)]
        self.assertTrue(nd.slices_intersect((4, 10), ninth, sixth))
        self.assertFalse(nd.slices_intersect((4, 5), ninth, sixth))
        self.assertTrue(nd.slices_intersect((5,), [Slice(0, None, MIN)], [4]))
        self.assertTrue(nd.slices_intersect((), [], []))
        self.assertFalse(nd.slices_intersect((0,), [ALL], [ALL]))
        self.assertFalse(nd.slices_intersect((MAX,), [Slice(0, None, 2**62)], [Slice(2, None, 2**62 - 1)]))
        self.assertRaises(IndexError, nd.slices_intersect, (5,), [5], [5])
        self.assertEqual(nd.picked((MAX,), [Slice(0, None, MIN)]), 1)

    def test_shapes(self):
        self.assertEqual(nd.broadcast_shapes((2, 1, 1), (0, 0, 1, 3, 4)), (0, 0, 2, 3, 4))
        self.assert_kind("IncompatibleShape", nd.broadcast_shapes, (1, 2, 2), (1, 3, 4))
        self.assertEqual(nd.broadcast((1, 3), (3, 1), (0, 3)), (0, 1))
        self.assert_kind("IncompatibleShape", nd.broadcast, (2, 3), (3, 1), (0, 3))
        self.assertRaises(OverflowError, nd.broadcast, (1,), (1,), (MAX, 2))
        self.assertEqual(nd.merge_axes((3, 2), (2, 1), 0, 1), ((1, 6), (2, 1)))
        self.assertIsNone(nd.merge_axes((3, 2), (2, 1), 1, 0))
        self.assertRaises(IndexError, nd.merge_axes, (3, 2), (2, 1), 2, 0)
        self.assert_kind("Unsupported", nd.merge_axes, (3, 2), (2, 1), 1, 1)
        self.assertEqual(nd.permuted_axes((2, 3, 4), (12, 4, 1), (2, 0, 1)), ((4, 2, 3), (1, 12, 4)))
        self.assert_kind("IncompatibleShape", nd.permuted_axes, (2, 3), (3, 1), (1, 1))

    def test_reshapes(self):
        wide = 3074457345618258602
        self.assertEqual(nd.reshape((4,), (wide,), (2, 2)), (2 * wide, wide))
        self.assertEqual(nd.reshape((6, 2), (2, 1), (4, 1, 3)), (3, 3, 1))
        self.assertEqual(nd.reshape((16,), (-4,), (2, 2, 4), order="F"), (-4, -8, -16))
        self.assertEqual(nd.reshape((1, 10), (10, 1), (1, 10, 1, 1, 1)), (10, 1, 1, 1, 1))
        self.assertEqual(nd.reshape((0, 2), (0, 0), (5, 0)), (0, 0))
        self.assert_kind("IncompatibleLayout", nd.reshape, (4, 4), (8, 1), (3, 5))
        self.assert_kind("IncompatibleShape", nd.reshape, (1, 2, 3), (6, 3, 1), (1,))
        self.assert_kind("IncompatibleShape", nd.reshape, (5, 0), (0, 0), (1,))
        self.assertRaises(OverflowError, nd.reshape, (6,), (1,), (MAX, 2))


class BadArguments(Case):
    """Numbers that C's types can't have."""

    def test_numbers(self):
        for shape in ((-1,), (2**64,), (2**64 + 3,)):
            self.assertRaises(OverflowError, nd.default_strides, shape)
        for stride in (2**63, -(2**63) - 1):
            self.assertRaises(OverflowError, nd.layout_start, (2,), (stride,), length=9)
            self.assertRaises(OverflowError, nd.picked, (2,), [stride])
            self.assertRaises(OverflowError, nd.picked, (2,), [Slice(0, None, stride)])
        for number in (-1, 2**64):
            self.assertRaises(OverflowError, nd.layout_start, (2,), (1,), length=number)
            self.assertRaises(OverflowError, nd.layout_start, (2,), (1,), length=9, elem_size=number)
            self.assertRaises(OverflowError, nd.place, number, (2,), (1,), (0,))
            self.assertRaises(OverflowError, nd.merge_axes, (2, 3), (3, 1), number, 0)
        self.assertEqual(nd.check_layout(MAX, (1,), (1,), length=2**64 - 1), None)

    def test_types(self):
        for wrong in ((1.5,), ("2",), (None,)):
            self.assertRaises(TypeError, nd.default_strides, wrong)
        self.assertRaises(TypeError, nd.picked, (4,), [slice(0, 2)])
        self.assertRaises(ValueError, nd.places, 0, (2,), (1,), order="K")
        self.assertRaises(ValueError, nd.next_index, (2,), (1,), order="A")
        self.assertRaises(ValueError, nd.element_strides, (8, 4), 8)
        self.assertRaises(ValueError, nd.element_strides, (8,), 0)
        self.assertRaises(ValueError, nd.lay_over, (2,), (4,), itemsize=0, nbytes=24)
        self.assertRaises(ValueError, nd.reshape_without_copy, ROWS, (12,), order="")

    def test_keys(self):
        for wrong in (True, False, 1.0, "0", [0], (0, (1, 2)), (slice(2), [0])):
            self.assertRaises(TypeError, nd.share_element, ROWS, wrong, 0)
            self.assertRaises(TypeError, nd.share_element, ROWS, 0, wrong)
        for outside in (3, -4, 10**30, (0, 0, 0), (..., ...), (ALL, ALL, ALL)):
            self.assertRaises(IndexError, nd.share_element, ROWS, outside, 0)
        self.assertRaises(ValueError, nd.share_element, ROWS, slice(0, 2, 0), 0)


def array_of(shape, strides, itemsize=8):
    """What stands in for an array."""
    return SimpleNamespace(shape=shape, strides=strides, itemsize=itemsize)


ROWS = array_of((3, 4), (32, 8))


class Keys(Case):
    def test_a_slice_is_one_key(self):
        rows = Slice(0, 2)
        self.assertEqual(nd.basic_key((3, 4), rows), [rows, Slice(0, 4)])
        self.assertEqual(nd.basic_key((3, 4, 5), (..., rows, -1)), [Slice(0, 3), rows, 4])
        self.assertTrue(nd.share_element(ROWS, rows, 1))
        self.assertFalse(nd.share_element(ROWS, rows, 2))
        self.assertFalse(nd.share_element(ROWS, Slice(step=-2), 1))
        self.assertRaises(IndexError, nd.share_element, ROWS, Slice(0, 9), 0)

    def test_a_slice_is_one_element(self):
        back = Slice(1, None, -2)
        self.assertEqual(nd.slice_view(0, (4,), (1,), back), View(3, (2,), (-2,)))
        self.assertEqual(nd.picked((4,), back), 2)
        self.assertFalse(nd.slices_intersect((4,), back, Slice(0, 3, 2)))
        for call in (nd.picked, lambda shape, elem: nd.slice_view(0, shape, (9, 3, 1), elem)):
            self.assert_kind("IncompatibleShape", call, (3, 3, 3), Slice(0, 2))

    def test_elements_may_come_from_a_generator(self):
        def column():
            return (elem for elem in (Slice(1), None, 2))

        self.assertEqual(nd.slice_view(0, (3, 4), (4, 1), column()), View(6, (2, 1), (4, 0)))
        self.assertEqual(nd.picked((3, 4), column()), 2)
        self.assertTrue(nd.slices_intersect((3, 4), column(), column()))


class Arrays(Case):
    def test_elements_that_may_overlap(self):
        windows, broadcast, backwards = ((4, 3), (8, 8)), ((2, 3), (0, 8)), ((4, 3), (8, -8))
        halves, halves_backwards, apart_against_the_rule = ((3,), (4,)), ((3,), (-4,)), ((3, 2), (16, 24))
        for shape, strides in (windows, broadcast, backwards, halves, halves_backwards, apart_against_the_rule):
            for second in (0, 1, slice(0, 0)):
                self.assert_kind("Undecided", nd.share_element, array_of(shape, strides), 0, second, max_work=0)

    def test_elements_that_lie_apart(self):
        every_third_window, reversed_rows, records = ((2, 3), (24, 8)), ((2, 3), (-24, 8)), ((3,), (12,))
        for shape, strides in (every_third_window, reversed_rows, records):
            self.assertFalse(nd.share_element(array_of(shape, strides), 0, 1))
            self.assertTrue(nd.share_element(array_of(shape, strides), 1, slice(1, None)))
        self.assertTrue(nd.share_element(array_of((1, 3), (8, 8)), 0, ...))
        self.assertFalse(nd.share_element(array_of((0, 3), (8, 8)), ..., ...))
        self.assertTrue(nd.share_element(array_of((), ()), (), ...))

    def test_orders_of_a_reshape(self):
        columns = array_of((4, 3), (8, 32))
        self.assert_kind("IncompatibleLayout", nd.reshape_without_copy, columns, (12,))
        self.assert_kind("IncompatibleLayout", nd.reshape_without_copy, columns, (12,), "C")
        self.assertEqual(nd.reshape_without_copy(columns, (12,), "F"), Reshaped("F", (8,)))
        self.assertEqual(nd.reshape_without_copy(columns, (12,), None), Reshaped("F", (8,)))
        self.assertEqual(nd.reshape_without_copy(columns, (2, 2, 3)), Reshaped("C", (16, 8, 32)))
        self.assertEqual(nd.reshape_without_copy(columns, (2, 2, 3), None), Reshaped("C", (16, 8, 32)))
        self.assertEqual(nd.reshape_without_copy(columns, (2, 2, 3), "F"), Reshaped("F", (8, 16, 32)))

    def test_axes_of_length_1(self):
        """Their strides count elements, also of elements that overlap and lie a byte apart."""
        self.assertEqual(nd.reshape_without_copy(array_of((3,), (16,)), (3, 1)), Reshaped("C", (16, 8)))
        self.assertEqual(nd.reshape_without_copy(array_of((3,), (1,)), (3, 1)), Reshaped("C", (1, 8)))


NAMES = """
    Array Elem Elems Layout LayoutError NegativeIndexError Numbers OutOfBoundsError OutOfMemoryError Reshaped Row
    ShapeError SizeOverflowError Slice View aligned basic_key broadcast broadcast_shapes check_layout chunks_of
    default_strides element_strides exact_chunks first_conflict first_intersection fortran_strides has_distinct_places
    has_overlap is_contiguous is_layout_c is_layout_f joined_rows lay_over layout_start merge_axes next_index
    permuted_axes picked place places reshape reshape_without_copy rows share_element shares_memory slice_view
    slices_intersect split_at waves windows
"""


class Version(unittest.TestCase):
    def test_names(self):
        """What `import *` gives, and `help` lists: a name that goes breaks callers."""
        self.assertEqual(nd.__all__, NAMES.split())

    def test_library(self):
        """A module of another version than the package isn't taken."""
        self.assertEqual(nd._native.version(), nd.__version__)
        with mock.patch.object(nd, "__version__", "0.0.9"):
            with self.assertRaisesRegex(ImportError, rf"is of version {nd._native.version()}, and this package of 0\.0\.9"):
                nd._begin()


class Errors(Case):
    def test_copies(self):
        with self.assertRaises(ShapeError) as caught:
            nd.broadcast_shapes((2,), (3,))
        error = caught.exception
        pickled = [pickle.dumps(error, protocol) for protocol in range(pickle.HIGHEST_PROTOCOL + 1)]
        for again in (copy.copy(error), copy.deepcopy(error), *map(pickle.loads, pickled)):
            self.assertIs(type(again), ShapeError)
            self.assertEqual(again.kind, "IncompatibleShape")
            self.assertEqual(again.axis, 0)
            self.assertEqual(again.numbers, {"first": 2, "second": 3})
            self.assertEqual(str(again), "IncompatibleShape: axis 0: lengths 2 and 3 have none in common")

    def test_pool(self):
        """An error in a worker arrives. One that can't be made again there would never."""
        with multiprocessing.get_context("spawn").Pool(1) as pool:
            result = pool.apply_async(nd.broadcast_shapes, ((2,), (3,)))
            self.assert_kind("IncompatibleShape", result.get, timeout=SECONDS)


if __name__ == "__main__":
    unittest.main()
