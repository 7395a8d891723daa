"""`first_conflict` with chunks of several lengths along an axis, as Dask's are, beside the chunks of each index.

    python3 test_chunks.py
"""

import random
import unittest
from collections import Counter
from itertools import product

import ndarray_layout as nd
from ndarray_layout import ShapeError

PLANS = 4_000


def numbers_of(lengths):
    """The number of the chunk of each index along an axis."""
    return [number for number, length in enumerate(lengths) for _ in range(length)]


def chunks_of(shape, chunks, key):
    """Each chunk that has an index of a key."""
    along = [numbers_of(lengths) for lengths in chunks]
    indices = product(*(range(length)[entry] for length, entry in zip(shape, key)))
    return {tuple(numbers[at] for numbers, at in zip(along, index)) for index in indices}


class BesideEachIndex(unittest.TestCase):
    def test_plans(self):
        numbers, seen = random.Random("uneven chunks"), Counter()
        for _ in range(PLANS):
            chunks = [[numbers.choice((0, 1, 1, 2, 3, 5)) for _ in range(numbers.randint(1, 5))] for _ in range(2)]
            shape = [sum(lengths) for lengths in chunks]
            keys = [tuple(self.entry(numbers, length) for length in shape) for _ in range(numbers.randint(2, 4))]
            touched = [chunks_of(shape, chunks, key) for key in keys]
            expected = {pair for pair in product(range(len(keys)), repeat=2) if pair[0] < pair[1]}
            expected = {pair for pair in expected if touched[pair[0]] & touched[pair[1]]}
            found = nd.first_conflict(shape, keys, chunks)
            self.assertTrue(found in expected if expected else found is None, (shape, chunks, keys, found, expected))
            seen["none" if found is None else "conflicts"] += 1
        print(f"test_plans of uneven chunks: {dict(sorted(seen.items()))}")
        self.assertGreater(min(seen.values()), PLANS // 10)

    def entry(self, numbers, length):
        bounds = numbers.choice((None, numbers.randint(0, 9))), numbers.choice((None, numbers.randint(0, 9)))
        return slice(*bounds, numbers.choice((None, 1, 2, 3, 5, -1, -2)))

    def test_even_lists(self):
        """A list of one length stands for that length."""
        numbers = random.Random("even chunks")
        for _ in range(1_000):
            length, chunk = numbers.randint(1, 30), numbers.randint(1, 9)
            lengths = [min(chunk, length - begin) for begin in range(0, length, chunk)]
            keys = [slice(numbers.randint(0, 30), numbers.randint(0, 30), numbers.choice((1, 2, 7))) for _ in range(3)]
            self.assertEqual(nd.first_conflict(length, keys, (lengths,)), nd.first_conflict(length, keys, chunk))

    def test_many_chunks(self):
        """A key takes time for the chunks that it touches, and not for its indices."""
        chunks = ([10**12, 5] * 1_000, 4)
        length = sum(chunks[0])
        keys = [(slice(None, length // 2, 3), 0), (slice(length // 2 + 10**12, None), slice(4))]
        self.assertIsNone(nd.first_conflict((length, 4), keys, chunks))
        self.assertEqual(nd.first_conflict((length, 4), [*keys, slice(5, 6)], chunks), (0, 2))

    def test_blocks(self):
        """Blocks of a key beside chunks of other lengths."""
        for blocks, found in (((4, 3, 2), None), ((4, 5), None), ((2, 2, 5), (0, 0)), ((4, 2, 3), (0, 0))):
            self.assertEqual(nd.first_conflict(9, [...], ((4, 3, 2),), blocks=[(blocks,)]), found)

    def test_errors(self):
        for chunks, text in (
            (((4, 3),), "axis 0: the chunks have 7 of 9 indices"),
            (((4, -3, 8),), "axis 0: chunk -3 is negative"),
        ):
            with self.assertRaisesRegex(nd.LayoutError, text):
                nd.first_conflict(9, [0], chunks)
        self.assertRaises(ShapeError, nd.first_conflict, 9, [0], (2, (3, 3)))
        self.assertRaises(TypeError, nd.first_conflict, 9, [0], ((4, 5.0),))
        self.assertRaises(TypeError, nd.first_conflict, 9, [0], ({9},))
        with self.assertRaisesRegex(ShapeError, "more than max_parts=2 parts"):
            nd.first_conflict(9, [slice(None, None, 4)], ((1, 2) * 3,), max_parts=2)


if __name__ == "__main__":
    unittest.main()
