"""`first_conflict` of boxes that hang together, beside each two of them.

    python3 test_boxes.py
"""

import random
import unittest
from collections import Counter
from itertools import combinations
from unittest import mock

import ndarray_layout as nd
from ndarray_layout import _boxes


class Boxes(unittest.TestCase):
    """Wide boxes beside narrow ones, of which no axis sets some apart from the others: they are compared in their order."""

    LISTS = 3_000

    def find(self, boxes):
        """What is found in boxes of [least, greatest] along each axis, as keys of an array."""
        shape = [1 + max(greatest for _, greatest in along) for along in zip(*boxes)]
        return nd.first_conflict(shape, [tuple(slice(least, greatest + 1) for least, greatest in box) for box in boxes])

    def share(self, one, other):
        return all(least <= last and first <= greatest for (least, greatest), (first, last) in zip(one, other))

    def test_lists(self):
        """Random lists of 9 to 39 boxes, each compared with each. Every second one takes the way of many."""
        numbers, seen = random.Random("boxes"), Counter()
        for number in range(self.LISTS):
            boxes = self.boxes(numbers, numbers.choice((2, 3)))
            pairs = combinations(range(len(boxes)), 2)
            expected = {(one, other) for one, other in pairs if self.share(boxes[one], boxes[other])}
            with mock.patch.object(_boxes, "FEW", (1, _boxes.FEW)[number % 2]):
                self.assertIn(self.find(boxes), expected or {None}, boxes)
            seen["conflicts" if expected else "none"] += 1
        print(f"test_lists of boxes: {dict(sorted(seen.items()))}")
        self.assertGreater(min(seen.values()), self.LISTS // 5)

    def boxes(self, numbers, axes):
        """Many begin at the same numbers of all axes but the last one. In every second list one box shares an index."""
        count, may_share = numbers.randint(9, 39), numbers.random() < 0.5
        lengths = [numbers.choice((2, 3, 4, 6)) for _ in range(axes - 1)] + [numbers.choice((30, 60))]
        boxes = []
        while len(boxes) < 9 or len(boxes) < count and numbers.random() < 0.99:
            box = [self.interval(numbers, length) for length in lengths]
            shared = sum(self.share(box, other) for other in boxes)
            if shared <= (may_share and len(boxes) > 8):
                boxes.append(box)
                may_share = may_share and not shared
        return boxes

    def interval(self, numbers, length):
        least, width = numbers.randrange(length), numbers.choice((1, 1, 1, 1, 2, 3, length // 2))
        return least, min(least + width, length) - 1

    def test_a_row(self):
        """Twenty boxes side by side in a row, four around them which hold all together, and one that shares a number."""
        around = [((0, 0), (0, 40)), ((0, 8), (41, 41)), ((9, 9), (1, 41)), ((1, 9), (0, 0))]
        row = [((5, 5), (column, column)) for column in range(1, 40, 2)]
        self.assertIsNone(self.find(around + row))
        for place in range(1, 20):
            for rows in ((4, 5), (5, 5)):
                one_more = rows, (2 * place, 2 * place + 1)
                self.assertEqual(self.find([*around, *row, one_more]), (4 + place, 24), one_more)


if __name__ == "__main__":
    unittest.main()
