"""`first_intersection` of slices with any bounds, beside `slices_intersect` of each two.

    python3 test_first_intersection.py
"""

import random
import unittest
from collections import Counter
from itertools import combinations

import ndarray_layout as nd
from ndarray_layout import LayoutError, Slice


class SlicesOfTheLayer(unittest.TestCase):
    """`first_intersection` beside `slices_intersect` of each two, with any bounds: what it takes, and what it refuses."""

    LISTS = 10_000

    def test_lists(self):
        numbers, seen = random.Random("slices"), Counter()
        for _ in range(self.LISTS):
            shape = [numbers.choice((0, 1, 5, 9)) for _ in range(numbers.choice((1, 1, 2)))]
            clamp = numbers.random() < 0.5
            slices = [[self.elem(numbers, length) for length in shape] for _ in range(numbers.choice((2, 3, 5)))]
            for elems in slices:
                if numbers.random() < 0.1:
                    elems.insert(0, None)
            expected, found = self.of_each(shape, slices, clamp), self.outcome(nd.first_intersection, shape, slices, clamp)
            if isinstance(expected, str):
                self.assertEqual(found, expected, (shape, slices, clamp))
            else:
                self.assertIn(found, expected or {None}, (shape, slices, clamp))
            seen["refused" if isinstance(expected, str) else "conflicts" if expected else "none"] += 1
        print(f"test_lists of slices: {dict(sorted(seen.items()))}")
        self.assertGreater(min(seen.values()), self.LISTS // 10)

    def elem(self, numbers, length):
        if numbers.random() < 0.2:
            return numbers.randint(0, length)
        end = numbers.choice((None, numbers.randint(-length, length), length + numbers.choice((0, 0, 0, 2))))
        return Slice(numbers.randint(-length, length), end, numbers.choice((1, 1, 2, 3, -1, -2, 2**62, -(2**62))))

    def of_each(self, shape, slices, clamp):
        for position, elems in enumerate(slices):
            error = self.outcome(nd.picked, shape, elems, clamp)
            if isinstance(error, str):
                return f"slice {position}: {error}"
        pairs = combinations(range(len(slices)), 2)
        return {(one, other) for one, other in pairs if nd.slices_intersect(shape, slices[one], slices[other], clamp)}

    def outcome(self, call, *arguments):
        try:
            return call(*arguments)
        except LayoutError as error:
            return error.text


if __name__ == "__main__":
    unittest.main()
