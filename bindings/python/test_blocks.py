"""Windows, chunks, parts, rows and packed records beside NumPy; distinct places beside sets of places.

    python3 test_blocks.py
"""

import random
import unittest
from collections import Counter

import ndarray_layout as nd
from ndarray_layout import Layout, ShapeError
from test_beside_numpy import ARRAYS, longer_axes, other_shape, outcome, start_of, view_of

try:
    import numpy as np
except ImportError:
    np = None

SKIPPED = "NumPy is missing: windows, chunks, parts and rows are not compared"


def setUpModule():
    if np is None:
        print(SKIPPED)


class Counted(unittest.TestCase):
    """Prints what it has seen, and how often."""

    def setUp(self):
        self.numbers = random.Random(self.id().rpartition(".")[2])
        self.seen = Counter()

    def tearDown(self):
        if self.seen:
            counts = ", ".join(f"{name} {count}" for name, count in sorted(self.seen.items()))
            print(f"{self._testMethodName}: {counts}")


@unittest.skipIf(np is None, SKIPPED)
class BesideNumpy(Counted):
    """20,000 random arrays each."""

    def setUp(self):
        super().setUp()
        self.base = np.arange(2_000, dtype=np.int32)

    def arrays(self):
        """Views of the base, each with its strides in elements and its start there."""
        for _ in range(ARRAYS):
            a = view_of(self.numbers, self.base)
            yield a, nd.element_strides(a.strides, a.itemsize), start_of(a, self.base)

    def block(self, shape):
        """The shape of a block, which seldom is none."""
        numbers = self.numbers
        block = [numbers.choice((1, max(length - 1, 1), numbers.randint(1, length + 1))) for length in shape]
        if block and numbers.random() < 0.02:
            block[numbers.randrange(len(block))] = 0
        return block + [1] * (numbers.random() < 0.02)

    def assert_error(self, shape, block, result):
        """A refusal, which is the one that is expected. Returns whether there is one."""
        wrong = len(shape) != len(block) or 0 in block
        self.assertEqual(result == "ValueError", wrong, (shape, block))
        self.seen["errors"] += wrong
        return wrong

    def test_windows(self):
        for a, strides, start in self.arrays():
            window = self.block(a.shape)
            ours = outcome(lambda: nd.windows(a.shape, strides, window))
            if self.assert_error(a.shape, window, ours):
                continue
            expected = outcome(lambda: np.lib.stride_tricks.sliding_window_view(a, window))
            if isinstance(expected, str):
                self.assertIn(0, ours[0])
                self.seen["windows longer than an axis, which NumPy refuses"] += 1
                continue
            self.assertEqual(ours[0], expected.shape)
            self.assertEqual(nd.places(start, *ours), tuple(expected.ravel()), (a.shape, a.strides, window))
            self.seen["windows"] += 1

    def test_chunks(self):
        for a, strides, start in self.arrays():
            chunk = self.block(a.shape)
            ours = outcome(lambda: nd.exact_chunks(a.shape, strides, chunk))
            if self.assert_error(a.shape, chunk, ours):
                continue
            expected = self.chunks_by_numpy(a, chunk)
            self.assertEqual(ours[0], expected.shape)
            self.assertEqual(nd.places(start, *ours), tuple(expected.ravel()), (a.shape, a.strides, chunk))
            self.seen["chunks"] += 1

    def chunks_by_numpy(self, a, chunk):
        counts = [length // block for length, block in zip(a.shape, chunk)]
        whole = a[tuple(slice(0, count * block) for count, block in zip(counts, chunk))]
        pairs = whole.reshape([length for pair in zip(counts, chunk) for length in pair])
        return pairs.transpose([*range(0, 2 * a.ndim, 2), *range(1, 2 * a.ndim, 2)])

    def test_parts(self):
        for a, strides, start in self.arrays():
            axis = self.numbers.randint(0, a.ndim)
            index = self.numbers.randint(0, a.shape[axis] + 1) if axis < a.ndim else 0
            ours = outcome(lambda: nd.split_at(start, a.shape, strides, axis, index))
            if axis == a.ndim or index > a.shape[axis]:
                self.assertEqual(ours, "IndexError")
                self.seen["errors"] += 1
                continue
            for part, expected in zip(ours, np.split(a, [index], axis)):
                self.assertEqual(part.shape, expected.shape)
                self.assertEqual(nd.places(*part), tuple(expected.ravel()), (a.shape, a.strides, axis, index))
            self.seen["parts"] += 1

    def test_rows(self):
        for a, strides, start in self.arrays():
            order = self.numbers.choice("CF")
            rows = list(nd.rows(start, a.shape, strides, order))
            places = [row.start + row.stride * k for row in rows for k in range(row.length)]
            self.assertEqual(places, a.ravel(order).tolist(), (a.shape, a.strides, order))
            self.assertEqual(len(rows), len(a.ravel(order)) // (rows[0].length if rows else 1))
            self.seen["rows"] += len(rows)

    def test_packed_records(self):
        """What `numpy.ndarray` takes over a buffer, of elements that lie at any bytes."""
        for _ in range(ARRAYS):
            shape = tuple(self.numbers.choices((1, 2, 3, 4), k=self.numbers.randint(1, 3)))
            strides = tuple(self.numbers.randint(-25, 25) for _ in shape)
            nbytes, offset, writable = (
                self.numbers.randint(1, 120),
                self.numbers.randint(0, 60),
                self.numbers.random() < 0.5,
            )
            expected = outcome(lambda: np.ndarray(shape, np.int32, bytes(nbytes), offset, strides).shape == shape)
            how = {"itemsize": 4, "nbytes": nbytes, "writable": writable}
            ours = outcome(lambda: nd.lay_over(shape, strides, **how, offset=offset) == offset)
            each_byte = nd.places(2_000, (*shape, 4), (*strides, 1))
            lie_apart = len(set(each_byte)) == len(each_byte)
            if writable and ours is True:
                self.assertTrue(lie_apart)
            if not writable or not nd.has_overlap((*shape, 4), (*strides, 1)):
                self.assertEqual(ours is True, expected is True, (shape, strides, nbytes, offset))
            self.seen[f"{'writable' if writable else 'read'}, {'accepted' if ours is True else 'refused'}"] += 1
            lowest, span = 2_000 - min(each_byte), max(each_byte) - min(each_byte) + 1
            if not writable:
                self.assertEqual(nd.lay_over(shape, strides, itemsize=4, nbytes=span), lowest)
                self.assertRaises(IndexError, nd.lay_over, shape, strides, itemsize=4, nbytes=span - 1)

    def test_fields(self):
        """The fields of a packed array lie over its bytes, where NumPy has them."""
        records = np.zeros(5, [("key", np.int32), ("text", "S3"), ("value", np.float64)])
        for name, (dtype, at) in records.dtype.fields.items():
            field = records[name]
            how = {"itemsize": dtype.itemsize, "nbytes": records.nbytes, "writable": True}
            offset = nd.lay_over(field.shape, field.strides, **how, offset=at)
            again = np.ndarray(field.shape, dtype, records, offset, field.strides)
            again[2] = 1
            self.assertEqual(records[name].tolist(), again.tolist())
            with self.assertRaises(IndexError):
                nd.lay_over(field.shape, field.strides, **how, offset=15 - dtype.itemsize + 1)

    def test_reshapes_of_fields(self):
        """NumPy's views of packed fields with another shape, and no others."""
        for _ in range(ARRAYS // 4):
            shape = tuple(self.numbers.choice((1, 2, 3, 4, 6)) for _ in range(self.numbers.randint(1, 3)))
            records = np.zeros(shape, [("key", np.int32), ("text", "S3")])
            field = records["key"].transpose(self.numbers.sample(range(len(shape)), len(shape)))
            new_shape, order = other_shape(self.numbers, field.shape), self.numbers.choice("CFA")
            expected = outcome(lambda: field.reshape(new_shape, order=order))
            ours = outcome(lambda: nd.reshape_without_copy(field, new_shape, order))
            if isinstance(expected, str) or not np.may_share_memory(expected, field):
                self.assertEqual(ours, "ValueError", (field.shape, field.strides, new_shape, order))
            else:
                self.assertEqual(longer_axes(new_shape, ours.strides), longer_axes(new_shape, expected.strides))
            self.seen["copies" if isinstance(ours, str) else "views"] += 1


class DistinctPlaces(Counted):
    def test_random_layouts(self):
        for _ in range(ARRAYS):
            shape = tuple(self.numbers.choice((0, 1, 2, 3, 4, 5, 3, 2)) for _ in range(self.numbers.randint(0, 4)))
            strides = tuple(self.numbers.randint(-30, 30) for _ in shape)
            places = nd.places(2_000, shape, strides)
            expected = len(set(places)) == len(places)
            self.assertIs(nd.has_distinct_places(shape, strides), expected, (shape, strides))
            by_the_rule = not nd.has_overlap(shape, strides)
            self.assertTrue(expected or not by_the_rule)
            self.seen[f"{'distinct' if expected else 'repeated'}, {'by' if by_the_rule else 'against'} the rule"] += 1

    def test_no_guess(self):
        strides = (1522284859645, 1638342608038, 1666001375193, 1996488968741, 1518992977833, 1606704305732)
        with self.assertRaises(ShapeError) as caught:
            nd.has_distinct_places((60,) * 6, strides, max_work=1_000)
        self.assertEqual(caught.exception.kind, "Undecided")
        self.assertRaises(ShapeError, nd.has_distinct_places, (3, 2), (2, 3), max_work=0)
        self.assertTrue(nd.has_distinct_places((3, 2), (3, 1), max_work=0))
        self.assertRaises(OverflowError, nd.has_distinct_places, (2**32, 2**32), (1, 1))

    def test_long_axes_take_few_steps(self):
        self.assertTrue(nd.has_distinct_places((10**9, 2), (2, 10**9 + 1), max_work=10))
        self.assertFalse(nd.has_distinct_places((10**9, 10**6), (8, 8), max_work=10))
        self.assertFalse(nd.has_distinct_places((10**9, 2), (0, 1), max_work=10))


class Layouts(unittest.TestCase):
    """The methods of `Layout` go by the functions, and keep what they promise."""

    LAYOUT = Layout.over(24, (2, 3, 4), writable=True)[:, ::-1]

    def test_blocks(self):
        windows, chunks = self.LAYOUT.windows((1, 2, 3)), self.LAYOUT.exact_chunks((1, 2, 3))
        self.assertEqual((windows.shape, windows.writable), ((2, 2, 2, 1, 2, 3), False))
        self.assertEqual((chunks.shape, chunks.writable), ((2, 1, 1, 1, 2, 3), True))
        self.assertEqual(windows[1, 0, 1, 0].places(), self.LAYOUT[1, :2, 1:].places())
        self.assertEqual(chunks[1, 0, 0, 0].places(), self.LAYOUT[1, :2, :3].places())
        self.assertRaises(ShapeError, self.LAYOUT.windows, (1, 2))
        self.assertRaises(ShapeError, self.LAYOUT.exact_chunks, (1, 2, 0))

    def test_parts(self):
        first, second = self.LAYOUT.split_at(1, 2)
        self.assertEqual(first, self.LAYOUT[:, :2])
        self.assertEqual((second.places(), second.writable), (self.LAYOUT[:, 2:].places(), True))
        self.assertRaises(IndexError, self.LAYOUT.split_at, 1, 4)
        self.assertRaises(IndexError, self.LAYOUT.split_at, 3, 0)
        self.assertRaises(OverflowError, self.LAYOUT.split_at, -1, 0)

    def test_distinct_places(self):
        self.assertTrue(self.LAYOUT.has_distinct_places(max_work=0))
        self.assertFalse(self.LAYOUT.windows((1, 2, 3)).has_distinct_places())
        against_the_rule = Layout.over(8, (3, 2), (2, 3))
        self.assertTrue(against_the_rule.has_overlap and against_the_rule.has_distinct_places())

    def test_first_intersection(self):
        self.assertEqual(self.LAYOUT.first_intersection([0, (1, 0), (1, slice(0, 2), -1)]), (1, 2))
        self.assertIsNone(self.LAYOUT.first_intersection([0, (1, 0), (1, slice(1, 3))]))
        self.assertRaises(IndexError, self.LAYOUT.first_intersection, [0, 2])


if __name__ == "__main__":
    unittest.main()
