"""`lay_over` of headers that nobody vouches for: shape, dtype, strides in bytes and an offset, beside NumPy and each byte.

    python3 test_headers.py
"""

import json
import random
import unittest
from collections import Counter
from itertools import product

import ndarray_layout as nd
from ndarray_layout import LayoutError, ShapeError

try:
    import numpy as np
except ImportError:
    np = None

HEADERS = 10_000
DTYPES = ("u1", "<i2", ">i2", "<u4", "<f8", "S3", "<U1", "V5", "?")


@unittest.skipIf(np is None, "NumPy is missing: headers are not compared")
class Headers(unittest.TestCase):
    def test_random_headers(self):
        """What is accepted reads each element within the buffer, as NumPy does; what is refused has one outside, or NumPy refuses."""
        numbers, seen = random.Random("headers"), Counter()
        for _ in range(HEADERS):
            header = self.header(numbers)
            shape, dtype, strides, offset = json.loads(json.dumps(header)).values()
            size, items = np.dtype(dtype).itemsize, bytes(numbers.randrange(256) for _ in range(numbers.randint(0, 40)))
            places = [offset + sum(map(int.__mul__, index, strides)) for index in product(*map(range, shape))]
            within = all(0 <= place and place + size <= len(items) for place in places)
            try:
                found = nd.lay_over(shape, strides, dtype=dtype, nbytes=len(items), offset=offset)
            except LayoutError:
                self.assertFalse(within and places, (header, len(items)))
                seen["refused"] += 1
                continue
            self.assertTrue(within, (header, len(items)))
            self.assertEqual((found, found), (offset, nd.lay_over(shape, strides, itemsize=size, nbytes=len(items), offset=offset)))
            array = np.ndarray(shape, dtype, items, offset, strides) if items else np.zeros(shape, dtype)
            self.assertEqual(b"".join(items[place : place + size] for place in places), array.tobytes() if places else b"")
            seen["accepted"] += 1
        print(f"test_random_headers: {dict(sorted(seen.items()))}")
        self.assertGreater(min(seen.values()), HEADERS // 5)

    def header(self, numbers):
        shape = [numbers.choice((0, 1, 1, 2, 2, 3, 4)) for _ in range(numbers.randint(0, 3))]
        dtype = numbers.choice(DTYPES)
        size = np.dtype(dtype).itemsize
        strides = [numbers.choice((0, 1, size, size, -size, 2 * size, 7)) for _ in shape]
        return {"shape": shape, "dtype": dtype, "strides": strides, "offset": numbers.choice((0, 0, 1, 4, 8, 20))}

    def test_many_at_one_byte(self):
        """A stride of 0 leaves no buffer, whatever its length is, and is none of a layout that may be written."""
        self.assertEqual(nd.lay_over(2**62, 0, dtype="u1", nbytes=1), 0)
        self.assertEqual(nd.Layout.over(b"a", 2**62, 0).size, 2**62)
        self.assertRaises(ShapeError, nd.lay_over, 2**62, 0, dtype="u1", nbytes=1, writable=True)
        self.assertRaises(IndexError, nd.lay_over, 2**62, 0, dtype="u2", nbytes=1)

    def test_errors(self):
        def call(**named):
            return nd.lay_over(2, 4, nbytes=64, **named)

        for named, error, text in (
            ({}, TypeError, "itemsize is missing: itemsize= or dtype= says how many bytes an item has"),
            ({"itemsize": 4, "dtype": "i4"}, ShapeError, "BadArgument: itemsize 4 beside a dtype, which says it itself"),
            ({"dtype": "O"}, TypeError, "dtype: bytes can't be taken for object: references to objects are no bytes"),
            ({"dtype": "nonsense"}, TypeError, "dtype: data type 'nonsense' not understood"),
            ({"dtype": "V0"}, ShapeError, "Unsupported: the item size 0 isn't above 0"),
        ):
            with self.subTest(text), self.assertRaises(error) as caught:
                call(**named)
            self.assertEqual(str(caught.exception), text)
        records = [("a", "i4"), ("b", "O")]
        self.assertRaises(TypeError, call, dtype=records)
        self.assertEqual(call(dtype=records[:1]), 0)


if __name__ == "__main__":
    unittest.main()
