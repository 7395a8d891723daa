"""What the module in C reads itself beside what it hands to the package: the same results, and the same errors.

    python3 test_native.py

Each test asks random inputs of one kind twice: as they are, and so that none is usual. Then functions of the package read them, in Python.
"""

import gc
import random
import sys
import traceback
import unittest
from types import SimpleNamespace

import ndarray_layout as nd
from ndarray_layout import Layout, Slice, _native

try:
    import numpy as np
except ImportError:
    np = None

INPUTS = 10_000
SKIPPED = "NumPy is missing: its arrays are not asked"
OTHER_WORK, OTHER_PARTS = 100_001, 1_000_001
"""Limits that are none of the usual ones: with these Python code decides."""


class Named(Layout):
    """A class that is made of `Layout`."""


class Number:
    """What has an index, or an error in its place."""

    def __init__(self, number):
        self.number = number

    def __index__(self):
        if isinstance(self.number, BaseException) or isinstance(self.number, type):
            raise self.number
        return self.number


class Key(tuple):
    """A key that the module in C doesn't read itself."""


def outcome(call, arguments):
    """What a call returns, with its class, or the error that it raises."""
    try:
        found = call(*arguments)
    except Exception as error:
        said = [getattr(error, name, None) for name in ("kind", "axis", "numbers")]
        return type(error), str(error), said
    return type(found), found, getattr(found, "itemsize", None), getattr(found, "format", None)


@unittest.skipIf(np is None, SKIPPED)
class BesidePython(unittest.TestCase):
    """Calls of random inputs."""

    def compare(self, inputs, usual, other):
        """Compares two calls of each input. More than a quarter have a result."""
        results = 0
        for arguments in inputs:
            one, two = outcome(usual, arguments), outcome(other, arguments)
            self.assertEqual(one, two, arguments)
            results += not issubclass(one[0], Exception)
        print(f"{self.id().rpartition('.')[2]}: {len(inputs)} inputs, {len(inputs) - results} errors")
        self.assertEqual(len(inputs), INPUTS)
        self.assertGreater(results, INPUTS // 4)

    # ---- Random arguments

    def length(self, numbers):
        return numbers.choice((0, 1, 2, 3, 4, 5, 8))

    def entry(self, numbers, length):
        """An entry of a key, usual or not."""
        kind = numbers.random()
        if kind < 0.35:
            return numbers.randint(-length - (kind < 0.01), max(length - (kind > 0.01), 0))
        if kind < 0.85:
            bounds = [None, *range(-length - 2, length + 3)]
            return slice(numbers.choice(bounds), numbers.choice(bounds), numbers.choice((None, 1, 1, 2, 3, -1, -2, 7)))
        return numbers.choice(
            (None, ..., True, 1.5, 2**63, -(2**64), np.int64(1), np.True_, np.arange(2), [0], "a", Slice(0, 1), slice(0, "a"))
            + (slice(None, None, 0), slice(2**70, -(2**70), -(2**80)), slice(np.int8(1), Number(3)), Number(0), slice(None, None, 2**63))
            + (Number(TypeError("of its own")), slice(Number(RuntimeError("of its own"))), slice(Number(ValueError("of its own"))), ())
        )

    def key(self, numbers, shape):
        entries = [self.entry(numbers, length) for length in shape[: numbers.randint(0, len(shape))]]
        if numbers.random() < 0.2:
            entries.insert(numbers.randint(0, len(entries)), numbers.choice((None, ..., ..., 0)))
        if len(entries) == 1 and numbers.random() < 0.5:
            return entries[0]
        return tuple(entries) if numbers.random() < 0.99 else entries

    def layout(self, numbers, length=200):
        """A layout over so many items: without gaps, by steps, or one that breaks the no-alias rule."""
        shape = tuple(self.length(numbers) for _ in range(numbers.randint(0, 4)))
        items = numbers.choice((length, bytes(length), memoryview(bytes(4 * length)).cast("i")))
        strides = tuple(numbers.randint(-12, 12) for _ in shape) if numbers.random() < 0.5 else None
        try:
            return numbers.choice((Layout, Named)).over(items, shape, strides, start=numbers.choice((None, 90)))
        except nd.LayoutError:
            return Layout.over(items, (6, 5, 4))[numbers.choice((..., slice(None, None, -2), (slice(1, 4), slice(None, None, 2))))]

    def array(self, numbers, memory):
        """An array somewhere in some memory, of any strides, or one of large strides in none."""
        shape = tuple(numbers.choice((0, 1, 2, 3, 4, 5, 9)) for _ in range(numbers.randint(0, 3)))
        kind = numbers.choice(("u1", "u1", "u2", "f4", "f8", "i1,f8", "M8[s]", "V0"))
        if numbers.random() < 0.1:
            shape = tuple(max(length, 1) << numbers.randint(0, 10) for length in shape)
            strides = tuple(numbers.randint(-4, 4) << numbers.randint(0, 57) for _ in shape)
        else:
            strides = tuple(numbers.choice((1, -1)) * numbers.choice((0, 1, 2, 3, 4, 8, 12, 16, 30, 40)) for _ in shape)
        begin = memory[numbers.randint(400, 440) :][: np.dtype(kind).itemsize].view(kind) if kind != "V0" else np.zeros(1, kind)
        return np.lib.stride_tricks.as_strided(begin, shape, strides)

    # ---- Calls

    def unusual(self, key):
        return Key(key) if type(key) is tuple else Key((key,))

    def test_slices(self):
        numbers = random.Random("slices")
        layouts = [self.layout(numbers) for _ in range(INPUTS)]
        inputs = [(layout, self.key(numbers, layout.shape)) for layout in layouts]
        self.compare(inputs, lambda layout, key: layout[key], lambda layout, key: layout[self.unusual(key)])

    def test_arrays(self):
        numbers, memory = random.Random("arrays"), np.zeros(1000, np.uint8)
        inputs = [(self.array(numbers, memory), self.array(numbers, memory)) for _ in range(INPUTS)]
        for at in range(0, INPUTS, 50):
            inputs[at] = inputs[at][0], numbers.choice((memory[0], [1], memory.data, Layout.of(memory), None, b"a", memory.view(np.recarray)))
        self.compare(inputs, nd.share_element, lambda a, b: nd.share_element(a, b, max_work=OTHER_WORK))

    def test_layouts(self):
        numbers = random.Random("layouts")
        inputs = [(self.layout(numbers), self.layout(numbers, 200 + (at % 50 == 0))) for at in range(INPUTS)]
        self.compare(inputs, nd.share_element, lambda a, b: nd.share_element(a, b, max_work=OTHER_WORK))

    def test_keys_of_arrays(self):
        numbers, memory = random.Random("keys"), np.zeros(1000, np.uint8)
        inputs = []
        for at in range(INPUTS):
            array = np.zeros((5, 4, 3), "i4")[numbers.choice((..., 1, slice(None, None, -2)))] if at % 2 else self.array(numbers, memory)
            inputs.append((array, self.key(numbers, array.shape), self.key(numbers, array.shape)))
        self.compare(inputs, nd.share_element, lambda a, first, second: nd.share_element(a, first, second, OTHER_WORK))

    def test_keys_of_layouts(self):
        numbers = random.Random("intersects")
        layouts = [self.layout(numbers) for _ in range(INPUTS)]
        inputs = [(layout, self.key(numbers, layout.shape), self.key(numbers, layout.shape)) for layout in layouts]
        self.compare(inputs, Layout.intersects, lambda layout, one, other: layout.intersects(self.unusual(one), self.unusual(other)))

    def test_layouts_of_arrays(self):
        numbers, memory = random.Random("of"), np.zeros(1000, np.uint8)
        inputs = [(self.array(numbers, memory), memory if at % 2 else None) for at in range(INPUTS)]
        self.compare(inputs, lambda a, base: Layout.of(a, base=base), lambda a, base: nd._layout.layout_of(Layout, a, base, None))

    def test_regions(self):
        numbers, inputs = random.Random("regions"), []
        for _ in range(INPUTS):
            shape = tuple(self.length(numbers) for _ in range(numbers.randint(0, 3)))
            regions = [self.key(numbers, shape) for _ in range(2)]
            chunks = None if numbers.random() < 0.4 else tuple(numbers.choice((1, 2, 2, 3, 4, 9)) for _ in shape)
            if numbers.random() < 0.05:
                shape = numbers.choice((5, [4, 3], (2**62, 3), (True, 2), (-1, 2), (2**63, 0), (2**64, 1), ()))
            if numbers.random() < 0.05:
                chunks = numbers.choice((2, (2,), (0, 1), (-1, 2), (2, None), ((2, 1), 2), "auto", (2, 2, 2, 2), (2**70, 1), (True, 2)))
            if numbers.random() < 0.05:
                regions = numbers.choice((regions[:1], (*regions, 0), tuple(regions), iter(regions), {}, slice(2), [{"x": 0}, 0], 5))
            inputs.append((shape, regions if not hasattr(regions, "__next__") else (regions,), chunks))
        self.compare(inputs, nd.first_conflict, lambda *asked: nd.first_conflict(*asked, max_parts=OTHER_PARTS))


@unittest.skipIf(np is None, SKIPPED)
class Alone(unittest.TestCase):
    """What the module itself does."""

    def calls(self):
        """Calls with usual arguments, with each that isn't usual, and with those that raise an error."""
        a, wide = np.zeros((6, 5, 4), "i4"), (1,) * 45
        interface = {"version": 3, "typestr": "|u1", "shape": (0,), "data": (2**63, False)}
        nowhere = np.asarray(SimpleNamespace(__array_interface__=interface))  # (at an address without 63 bits)
        layout = Named(1000, (6, 5, 4), (20, 4, 1), length=2000, itemsize=4, format="format of items")
        keys = [(1, ..., slice(None, None, -1)), 2**70, (0, 0, 9), slice(0, "a"), (slice(2), None), (..., ...), (0,) * 4, [0], (None,) * 2000]
        for key in (*keys, slice(Number(KeyboardInterrupt), None)):
            yield layout.__getitem__, key
            yield nd.share_element, a, key, 0
            yield layout.intersects, key, 0
            yield nd.first_conflict, layout.shape, [key, 0], (2, 2, 2)
        for shape in ([6, 20], (6, -5, 4), (6, 2**70, 4), (6, "5", 4), wide, (-1, 6), (Number(120),), 7, "a"):
            yield layout.reshape, shape
            yield nd.default_strides, shape
            yield nd.reshape, (6, 20), (20, 1), shape
            yield nd.broadcast_shapes, shape, (6, 1)
            yield Layout.over, 120, shape
        for one, other in ((a, a[1:]), (a, a[:0]), (a, 5), (5, a), (a, nowhere), (nowhere, a), (a, a.view(np.recarray)), (layout, layout)):
            yield nd.share_element, one, other
        for array in (a, a[::-1, 1:], a.view("V4"), nowhere, np.zeros((1, 3)), 5, b"abc"):
            yield Layout.of, array
            yield nd.is_layout_c, array
            yield nd.lay_over, array, 5
        for call in (layout.squeeze, layout.diagonal, layout.transpose, layout.ravel, layout.swapaxes, nd.place, _native.reason):
            yield call,
            yield call, 1
            yield call, 9, 9, 9
        yield _native.address, a
        yield _native.tensor, a
        yield _native.reason, "slice", (2,), (1, 5, 0, 1), 0

    def test_nothing_is_kept(self):
        """1,000 calls keep no argument and no object of their own, however they end."""
        for call, *arguments in self.calls():
            watched = [value for value in arguments if type(value) is not int or value > 256]  # (Python shares the others)
            for _ in range(2):  # (what is made once is made in the first round)
                gc.collect()
                before, blocks = [*map(sys.getrefcount, watched)], sys.getallocatedblocks()
                for _ in range(1000):
                    try:
                        call(*arguments)
                    except (Exception, KeyboardInterrupt):
                        pass
                gc.collect()
                after, more = [*map(sys.getrefcount, watched)], sys.getallocatedblocks() - blocks
            self.assertEqual(before, after, (call, arguments))
            self.assertLess(more, 500, (call, arguments))

    def test_past_the_room(self):
        """Lists and keys are of any length, also past the room that the module has for most."""
        none, ones = (None,), (1,) * 70
        for entries in (33, 41, 100, 2_000):
            for key in (none * entries, (*none * entries, slice(1)), (..., *none * entries)):
                self.assertEqual(Layout.over(9, 9)[key].ndim, entries + 1)
                self.assertTrue(Layout.over(9, 9).intersects(0, key))
        wide = Layout.over(1, ones)
        self.assertEqual((wide[(0,) * 69].shape, wide.T.shape, wide.reshape(ones[:50]).shape), ((1,), ones, ones[:50]))
        self.assertTrue(nd.share_element(wide, wide))
        self.assertEqual(nd.broadcast_shapes(ones, (2,), ones[:60]), (*ones[:69], 2))
        self.assertEqual(nd.lay_over(ones, (3,) * 70, itemsize=2, nbytes=9), 0)

    def test_interrupts_pass(self):
        for error in (KeyboardInterrupt, MemoryError):
            with self.assertRaises(error):
                Layout.over(9, 9)[slice(Number(error), None)]

    def test_what_is_no_layout(self):
        for arguments in ((), (0, 1), (0, 1, 1), (0, 1, 1, 5)):
            self.assertRaises(TypeError, Layout, *arguments)
        self.assertRaises(TypeError, Layout.__new__, Layout)
        self.assertRaises(TypeError, _native.reason, "another")


if __name__ == "__main__":
    unittest.main()
