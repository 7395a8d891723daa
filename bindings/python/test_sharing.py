"""`share_element` of arrays whose elements may overlap, beside `numpy.shares_memory` and beside sets of places.

    python3 test_sharing.py
"""

import random
import unittest
from collections import Counter
from itertools import product
from types import SimpleNamespace

import ndarray_layout as nd
from ndarray_layout import Layout, ShapeError
from ndarray_layout._sharing import Part, share_byte

try:
    import numpy as np
except ImportError:
    np = None

ARRAYS = 20_000
SKIPPED = "NumPy is missing: shares_memory is not compared"


def setUpModule():
    if np is None:
        print(SKIPPED)


def bytes_of(part, itemsize):
    """Each byte of a part."""
    ranges = [[index * stride for index in range(length)] for length, stride in zip(part.shape, part.strides)]
    return {part.start + sum(corner) + byte for corner in product(*ranges) for byte in range(itemsize)}


class BesideSets(unittest.TestCase):
    """Parts whose bytes are counted one by one."""

    def test_parts(self):
        numbers, seen = random.Random("parts"), Counter()
        for _ in range(ARRAYS):
            one, other = self.part(numbers), self.part(numbers)
            itemsize = numbers.choice((1, 1, 2, 4, 8))
            expected = bool(bytes_of(one, itemsize) & bytes_of(other, itemsize))
            self.assertIs(share_byte(one, other, itemsize), expected, (one, other, itemsize))
            self.assertIs(share_byte(other, one, itemsize), expected, (one, other, itemsize))
            seen["shared" if expected else "not shared"] += 1
        print(f"test_parts: {dict(sorted(seen.items()))}")
        self.assertGreater(min(seen.values()), ARRAYS // 10)

    def part(self, numbers):
        shape = tuple(
            numbers.choice((0, 1, 2, 3, 4, 5)) if numbers.random() < 0.5 else 3 for _ in range(numbers.randint(0, 3))
        )
        strides = tuple(numbers.choice((1, -1)) * numbers.choice((0, 1, 2, 3, 6, 10, 15, 16, 24, 40)) for _ in shape)
        return Part(numbers.randint(0, 60), shape, strides)


class Bounds(unittest.TestCase):
    """What a comparison may cost, and what it says past that."""

    STRIDES = tuple(10**12 + number for number in (39, 61, 63, 91, 121, 163))  # (which go badly together)

    def test_no_guess(self):
        middle = sum(30 * stride for stride in self.STRIDES)
        self.assertIsNone(share_byte(Part(0, (60,) * 6, self.STRIDES), Part(middle + 1, (), ()), 1, max_work=1_000))

    def test_enough_steps(self):
        strides, numbers = (10_007, 10_009, 10_037), random.Random("steps")
        sums = {sum(map(int.__mul__, index, strides)) for index in product(range(40), repeat=3)}
        for _ in range(1_000):
            place = numbers.choice(tuple(sums) if numbers.random() < 0.01 else (numbers.randint(0, max(sums)),))
            shared = share_byte(Part(0, (40,) * 3, strides), Part(place, (), ()), 1)
            self.assertIs(shared, place in sums)
        self.assertIsNone(share_byte(Part(0, (40,) * 3, strides), Part(min(sums - {0}), (), ()), 1, max_work=0))

    def test_refusal_says_how_many_steps(self):
        shape, strides = (60,) * 6 + (2,), (*self.STRIDES, 1)
        keys = (..., 0), (30,) * 6 + (1,)
        array = SimpleNamespace(shape=(*shape, 2), strides=(*strides, 1), itemsize=1)
        whole, point = (*keys[0], slice(0, 1)), (*keys[1], slice(0, 1))
        layout = Layout(0, array.shape, array.strides, length=2**62)

        def by_array(max_work):
            return nd.share_element(array, whole, point, max_work)

        def by_layout(max_work):
            return layout.intersects(whole, point, max_work)

        for call in (by_array, by_layout):
            with self.assertRaises(ShapeError) as caught:
                call(1_000)
            self.assertEqual(caught.exception.kind, "Undecided")
            self.assertIn("1000 steps don't decide", str(caught.exception))
            self.assertRaises(ShapeError, call, 0)

    def test_large_arrays_take_few_steps(self):
        """Windows, broadcasts and rows however long: their terms are one, or two."""
        windows = SimpleNamespace(shape=(10**9, 10**6), strides=(8, 8), itemsize=8)
        self.assertTrue(nd.share_element(windows, 0, 10**6 - 1, max_work=10))
        self.assertFalse(nd.share_element(windows, 0, 10**6, max_work=10))
        broadcast = SimpleNamespace(shape=(10**9, 10**6), strides=(0, 8), itemsize=8)
        self.assertTrue(nd.share_element(broadcast, 3, 7, max_work=10))
        self.assertFalse(nd.share_element(broadcast, (..., slice(0, None, 2)), (..., slice(1, None, 2)), max_work=10))
        apart = SimpleNamespace(shape=(3, 2), strides=(16, 24), itemsize=8)
        self.assertFalse(nd.share_element(apart, (slice(None), 0), (slice(None), 1), max_work=10))

    def test_without_end(self):
        self.assertIs(share_byte(Part(0, (9,) * 4, (1009, 1013, 1019, 1021)), Part(7, (), ()), 1, None), False)


@unittest.skipIf(np is None, SKIPPED)
class BesideNumpy(unittest.TestCase):
    def test_strided(self):
        """Arrays of `as_strided`, whose elements may be the same or overlap by some bytes."""
        numbers, seen = random.Random("strided"), Counter()
        base = np.zeros(4_000, np.uint8)
        for _ in range(ARRAYS):
            a = self.strided(numbers, base)
            first, second = self.key(numbers, a.shape), self.key(numbers, a.shape)
            expected = np.shares_memory(a[first], a[second])
            shared = nd.share_element(a, first, second)
            self.assertEqual(shared, expected, (a.shape, a.strides, a.dtype, first, second))
            rule = "against the rule" if nd.has_overlap((*a.shape, a.itemsize), (*a.strides, 1)) else "by the rule"
            seen[f"{rule}, {'shared' if shared else 'not shared'}"] += 1
        print("test_strided: " + ", ".join(f"{name} {count}" for name, count in sorted(seen.items())))
        self.assertGreater(seen["against the rule, not shared"], ARRAYS // 10)
        self.assertGreater(seen["against the rule, shared"], ARRAYS // 10)

    def test_items_of_no_bytes(self):
        """They share none, also by keys. NumPy says so of them alone, and not of some beside other items."""
        base = np.zeros(24, np.uint8)
        nothing = np.ndarray((3,), "V0", base, 0, (8,))
        for keys in product((slice(0, 2), slice(1, 3), slice(None)), repeat=2):
            parts = [nothing[key] for key in keys]
            self.assertEqual([nd.share_element(nothing, *keys), nd.share_element(*parts), np.shares_memory(*parts)], [False] * 3)
        self.assertRaises(IndexError, nd.share_element, nothing, 0, 3)
        self.assertFalse(nd.share_element(nothing, base) or nd.shares_memory(base, nothing))
        self.assertTrue(np.shares_memory(nothing, base))

    def strided(self, numbers, base):
        dtype = numbers.choice((np.uint8, np.int32, np.float64))
        shape = tuple(numbers.choice((0, 1, 2, 3, 4, 5, 6, 2, 3)) for _ in range(numbers.randint(1, 4)))
        units = numbers.choice((1, np.dtype(dtype).itemsize))
        strides = tuple(numbers.choice((1, -1)) * units * numbers.choice((0, 1, 2, 3, 5, 6, 7, 10, 12)) for _ in shape)
        middle = np.ndarray((1,), dtype, base, 2_000)
        return np.lib.stride_tricks.as_strided(middle, shape, strides)

    def key(self, numbers, shape):
        """A slice for each axis, so that NumPy gives a view."""

        def bound(length):
            return numbers.choice((None, None, numbers.randint(-length, length)))

        def entry(length):
            if length and numbers.random() < 0.2:
                at = numbers.randrange(length)
                return slice(at, at + 1)
            return slice(bound(length), bound(length), numbers.choice((None, 1, 2, 3, -1, -2)))

        return tuple(entry(length) for length in shape)


if __name__ == "__main__":
    unittest.main()
