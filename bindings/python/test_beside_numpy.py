"""`ndarray_layout` beside NumPy: random arrays, and the keys that it takes. Without NumPy it says that it is skipped.

    python3 test_beside_numpy.py
"""

import random
import unittest
from collections import Counter

import ndarray_layout as nd
from ndarray_layout import ShapeError

try:
    import numpy as np
except ImportError:
    np = None

MAX, MIN = 2**63 - 1, -(2**63)
ARRAYS = 20_000
SKIPPED = "NumPy is missing: slices, broadcasts, reshapes, bounds and shares_memory are not compared"


def setUpModule():
    if np is None:
        print(SKIPPED)


def view_of(numbers, base):
    """A view of a list of numbers that is its own list of places: some axes, permuted, sliced, seldom repeated."""
    axes = numbers.randint(0, 4)
    shape = tuple(numbers.choice((1, 2, 2, 3, 4, 5, 6)) for _ in range(axes))
    view = base[: np.prod(shape, dtype=int)].reshape(shape, order=numbers.choice("CF"))
    view = view.transpose(numbers.sample(range(axes), axes))
    steps = tuple(slice(None, None, numbers.choice((1, 1, 1, 2, -1, -2))) for _ in range(axes))
    view = view[(..., *steps)]
    if numbers.random() < 0.05:
        view = np.broadcast_to(view, (numbers.randint(1, 3), *view.shape))
    if numbers.random() < 0.05 and axes:
        view = view[..., :0]
    return view


def start_of(view, base):
    """The place of the first element of a view of `base`."""
    bytes_before = view.__array_interface__["data"][0] - base.__array_interface__["data"][0]
    return bytes_before // base.itemsize


def random_key(numbers, shape):
    """A basic slice, which seldom doesn't fit."""

    def bound(length):
        far = numbers.choice((MAX, MIN, 10**30))
        return numbers.choice((None, None, numbers.randint(-length - 3, length + 3), far))

    key = []
    for length in shape:
        if numbers.random() < 0.2:
            near = numbers.randint(-length - 1, length)
            key.append(near if numbers.random() < 0.1 or length == 0 else near % length)
        else:
            step = numbers.choice(
                (None, 1, 2, 3, -1, -2, -3, 10**30, -(10**30)) if numbers.random() < 0.98 else (0,)
            )
            key.append(slice(bound(length), bound(length), step))
    if numbers.random() < 0.2:
        key.insert(numbers.randint(0, len(key)), None)
    if numbers.random() < 0.2:
        at = numbers.randint(0, len(key))
        key[at : at + numbers.randint(0, 2)] = [...]
    if numbers.random() < 0.01:
        key.append(0)
    return tuple(key)


def outcome(call):
    """What a call returns, or the name of Python's exception."""
    classes = (IndexError, TypeError, ValueError)
    try:
        return call()
    except classes as error:
        return next(name.__name__ for name in classes if isinstance(error, name))


def other_shape(numbers, shape):
    """A shape of mostly the same size: factors split and joined, and axes of length 1."""
    factors = [factor for length in shape for factor in numbers.choice(((length,), SPLIT.get(length, (length,))))]
    joined = []
    for factor in factors:
        if joined and numbers.random() < 0.4:
            joined[-1] *= factor
        else:
            joined.append(factor)
    if numbers.random() < 0.3:
        joined.insert(numbers.randint(0, len(joined)), 1)
    if numbers.random() < 0.1:
        numbers.shuffle(joined)
    return tuple(joined)


SPLIT = {4: (2, 2), 6: (2, 3)}
ORDERS = ({}, *({"order": order} for order in "CFAcfa"))


def longer_axes(shape, strides):
    """The strides of the axes of length greater than 1."""
    return [stride for length, stride in zip(shape, strides) if length > 1]


@unittest.skipIf(np is None, SKIPPED)
class BesideNumpy(unittest.TestCase):
    """20,000 random arrays for each comparison. Where NumPy is known to differ, that is counted and printed."""

    def setUp(self):
        self.numbers = random.Random(self.id().rpartition(".")[2])
        self.base = np.arange(2_000, dtype=np.int32)
        self.seen = Counter()

    def tearDown(self):
        print(f"{self._testMethodName}: " + ", ".join(f"{name} {count}" for name, count in sorted(self.seen.items())))

    def arrays(self):
        """Views of the base, each with its strides in elements and its start there."""
        for _ in range(ARRAYS):
            a = view_of(self.numbers, self.base)
            yield a, nd.element_strides(a.strides, a.itemsize), start_of(a, self.base)

    def test_slices(self):
        for a, strides, start in self.arrays():
            key = random_key(self.numbers, a.shape)
            expected = outcome(lambda: a[key])
            sliced = outcome(lambda: nd.slice_view(start, a.shape, strides, nd.basic_key(a.shape, key)))
            if isinstance(expected, str) or isinstance(sliced, str):
                self.assertEqual(sliced, expected, (a.shape, key))
                self.seen["errors"] += 1
                continue
            expected = np.asarray(expected)
            self.assertEqual(sliced.shape, expected.shape)
            self.assertEqual(nd.places(*sliced), tuple(expected.ravel()), (a.shape, a.strides, key))
            theirs = nd.element_strides(expected.strides, 4)
            if expected.size:
                self.assertEqual(longer_axes(*sliced[1:]), longer_axes(sliced.shape, theirs))
            self.seen["slices"] += 1
            self.seen["other strides on axes of length 0 or 1, or of empty arrays"] += sliced.strides != theirs

    def test_broadcasts(self):
        for a, strides, start in self.arrays():
            target = [length if length != 1 else self.numbers.choice((0, 1, 3)) for length in a.shape]
            if target and self.numbers.random() < 0.1:
                target[self.numbers.randrange(len(target))] = 2
            target = tuple(self.numbers.choices((0, 1, 2), k=self.numbers.randint(0, 2))) + tuple(target)
            common = outcome(lambda: nd.broadcast_shapes(a.shape, target))
            self.assertEqual(common, outcome(lambda: np.broadcast_shapes(a.shape, target)))
            expected = outcome(lambda: np.broadcast_to(a, target))
            ours = outcome(lambda: nd.broadcast(a.shape, strides, target))
            if isinstance(expected, str):
                self.assertEqual(ours, expected)
                self.seen["errors"] += 1
                continue
            self.assertEqual(nd.places(start, target, ours), tuple(expected.ravel()))
            theirs = nd.element_strides(expected.strides, 4)
            if expected.size:
                self.assertEqual(longer_axes(target, ours), longer_axes(target, theirs))
            self.seen["broadcasts"] += 1
            self.seen["other strides on axes of length 0 or 1, or of empty arrays"] += ours != theirs

    def reshaped_by_numpy(self, a, shape, **order):
        """NumPy's view with another shape, or 'copy', or 'ValueError'."""
        b = outcome(lambda: a.reshape(shape, **order))
        if isinstance(b, str):
            return b
        return b if np.may_share_memory(a, b) else "copy"

    def test_reshapes(self):
        for a, strides, start in self.arrays():
            shape, order = other_shape(self.numbers, a.shape), self.numbers.choice(ORDERS)
            expected = self.reshaped_by_numpy(a, shape, **order)
            ours = outcome(lambda: nd.reshape_without_copy(a, shape, **order))
            if a.size == 0:
                self.assertEqual(isinstance(ours, str), isinstance(expected, str) and expected != "copy")
                self.seen["empty arrays, of which NumPy makes no view of the same memory"] += 1
            elif isinstance(expected, str):
                self.assertEqual(ours, "ValueError", (a.shape, a.strides, shape, order))
                self.seen[f"no strides: {expected} in NumPy"] += 1
            else:
                new_strides = nd.element_strides(ours.strides, 4)
                self.assertEqual(nd.places(start, shape, new_strides), tuple(expected.ravel()))
                self.assertEqual(longer_axes(shape, ours.strides), longer_axes(shape, expected.strides))
                self.seen["views"] += 1
                self.seen["other strides on axes of length 1"] += ours.strides != expected.strides

    def test_shapes_that_are_set(self):
        """`a.shape = shape` never copies: it raises instead."""
        for a, _, _ in self.arrays():
            shape = other_shape(self.numbers, a.shape)
            b = a.view()
            try:
                b.shape = shape
                fits = True
            except (AttributeError, ValueError):
                fits = False
            if a.size:
                ours = outcome(lambda: nd.reshape_without_copy(a, shape, "C"))
                self.assertEqual(fits, ours != "ValueError", (a.shape, a.strides, shape))
                self.seen["set" if fits else "refused"] += 1
            else:
                self.seen["empty arrays"] += 1

    def test_bounds(self):
        """What `numpy.ndarray` takes over a buffer, and that the places are those of `as_strided`."""
        for _ in range(ARRAYS):
            shape = tuple(self.numbers.choices((0, 1, 2, 3, 4), weights=(1, 4, 9, 9, 4), k=self.numbers.randint(0, 3)))
            strides = tuple(4 * self.numbers.randint(-6, 6) for _ in shape)
            nbytes, offset = self.numbers.choice((0, *range(121))), self.numbers.randint(0, 60)
            buffer = bytearray(nbytes)
            expected = outcome(lambda: np.ndarray(shape, np.int32, buffer, offset, strides).shape == shape)
            ours = outcome(lambda: nd.lay_over(shape, strides, itemsize=4, nbytes=nbytes, offset=offset) == offset)
            if 0 in shape or nbytes == 0:
                case = "empty shapes" if 0 in shape else "buffers of no bytes"
                self.assertFalse(ours is True and expected is not True)
                self.seen[f"{case}: refused, which NumPy lets pass"] += ours is not True and expected is True
                self.seen[case] += 1
                continue
            self.assertEqual(ours is True, expected is True, (shape, strides, nbytes, offset))
            self.seen["within" if ours is True else "not within"] += 1
            if ours is True and offset % 4 == 0:
                a = np.lib.stride_tricks.as_strided(self.base[offset // 4 :], shape, strides)
                steps = nd.element_strides(strides, 4)
                self.assertEqual(nd.places(offset // 4, shape, steps), tuple(a.ravel()))
                low, high = np.byte_bounds(a)
                self.assertLessEqual(high - self.base.__array_interface__["data"][0], nbytes)

    def test_lowest_offsets(self):
        """Without an offset the lowest element begins at byte 0, and the highest ends where the span does."""
        for a, strides, _ in self.arrays():
            if a.size == 0:
                continue
            low, high = np.byte_bounds(a)
            offset = nd.lay_over(a.shape, a.strides, itemsize=a.itemsize, nbytes=high - low)
            self.assertEqual(offset, a.__array_interface__["data"][0] - low)
            with self.assertRaises(IndexError):
                nd.lay_over(a.shape, a.strides, itemsize=a.itemsize, nbytes=high - low - 1)
            self.seen["arrays"] += 1

    def test_shared_elements(self):
        for a, strides, _ in self.arrays():
            first, second = random_key(self.numbers, a.shape), random_key(self.numbers, a.shape)
            if nd.has_overlap(a.shape, strides):
                self.assert_undecided(a, first, second)
                self.seen["arrays that break the no-alias rule"] += 1
            parts = outcome(lambda: (np.asarray(a[first]), np.asarray(a[second])))
            ours = outcome(lambda: nd.share_element(a, first, second))
            if isinstance(parts, str) or isinstance(ours, str):
                self.assertEqual(ours, parts, (a.shape, first, second))
                self.seen["errors"] += 1
                continue
            expected = np.shares_memory(a[first], a[second]) if self.are_views(a, first, second) else None
            if expected is None:
                expected = bool(set(np.ravel(parts[0]).tolist()) & set(np.ravel(parts[1]).tolist()))
                self.seen["one element, compared by its number"] += 1
            self.assertEqual(ours, expected, (a.shape, a.strides, first, second))
            self.seen["shared" if ours else "not shared"] += 1

    def assert_undecided(self, a, first, second):
        """`share_element` refuses the array where it may not compare the places."""
        with self.assertRaises(ShapeError) as caught:
            nd.share_element(a, first, second, max_work=0)
        self.assertEqual(caught.exception.kind, "Undecided")

    def test_shared_bytes(self):
        """Any strides in bytes, of elements that may overlap."""
        for _ in range(ARRAYS):
            a = self.array_by_bytes()
            byte_layout = (*a.shape, a.itemsize), (*a.strides, 1)
            each_byte = nd.places(2_000, *byte_layout)
            lie_apart = len(set(each_byte)) == len(each_byte)
            first, second = self.few_rows(), self.few_rows()
            if nd.has_overlap(*byte_layout):
                self.assert_undecided(a, first, second)
                self.seen["against the rule: elements " + ("lie apart" if lie_apart else "overlap")] += 1
            else:
                self.assertTrue(lie_apart, (a.shape, a.strides))
            shared = np.shares_memory(a[first], a[second])
            self.assertEqual(nd.share_element(a, first, second), shared, (a.shape, a.strides, first, second))
            self.seen["shared" if shared else "not shared"] += 1

    def array_by_bytes(self):
        """A view of the base from its middle, whose strides may be no multiples of its item size."""
        shape = tuple(self.numbers.choices((0, 1, 2, 3), weights=(1, 2, 9, 9), k=self.numbers.randint(1, 3)))
        strides = tuple(self.numbers.choice((1, -1)) * self.numbers.choice((0, 1, 2, 3, 4, 8, 12, 24)) for _ in shape)
        return np.lib.stride_tricks.as_strided(self.base[500:], shape, strides)

    def few_rows(self):
        return slice(self.numbers.randint(0, 2), self.numbers.randint(1, 3))

    def are_views(self, a, *keys):
        """Whether NumPy gives views for all keys, and no scalars."""
        return all(isinstance(a[key], np.ndarray) for key in keys)


@unittest.skipIf(np is None, SKIPPED)
class Keys(unittest.TestCase):
    def test_windows(self):
        """Rows of windows overwrite one another, and are never said to be apart."""
        windows = np.lib.stride_tricks.sliding_window_view(np.arange(6), 3)
        self.assertTrue(np.shares_memory(windows[0], windows[1]))
        self.assertTrue(nd.share_element(windows, 0, 1))
        self.assertRaises(ShapeError, nd.share_element, windows, 0, 1, max_work=0)
        self.assertFalse(nd.share_element(windows[::3], 0, 1))

    def test_integers(self):
        a = np.arange(12).reshape(3, 4)
        for one in (np.int64(1), np.int8(1), np.uint64(1)):
            self.assertTrue(nd.share_element(a, one, 1))
            self.assertTrue(nd.share_element(a, (..., one), (1, 1)))

    def test_others(self):
        """NumPy takes each of these by other rules than integers, most of them with a copy."""
        a = np.arange(12).reshape(3, 4)
        for wrong in (np.True_, np.False_, np.array(1), np.array(True), np.array([1]), np.float64(1)):
            self.assertRaises(TypeError, nd.share_element, a, wrong, 0)
            self.assertRaises(TypeError, nd.share_element, a, (0, wrong), 0)


if __name__ == "__main__":
    unittest.main()
