"""`Layout.to_svg` and `_repr_html_`: what stands in the pictures. `picture_in_browser.py` measures how they are drawn.

    python3 test_picture.py
"""

import random
import re
import unittest
from collections import Counter
from itertools import product
from xml.etree import ElementTree

from ndarray_layout import Layout
from ndarray_layout._picture import count_places

NAMES = {"svg": "{http://www.w3.org/2000/svg}"}


def parts(layout, name):
    return [*ElementTree.fromstring(layout.to_svg()).iter(f"{NAMES['svg']}{name}")]


def titles(layout):
    return [title.text for rect in parts(layout, "rect") for title in rect]


class Cells(unittest.TestCase):
    def test_cells(self):
        self.assertEqual(
            titles(Layout.over(3, (1, 2), (0, -2))),
            [
                "index (0,0) has place 2",
                "index (0,1) has place 0",
                "place 0: 0,1",
                "place 1: no index",
                "place 2: 0,0",
            ],
        )
        self.assertEqual(titles(Layout.over(4, 1).broadcast_to(3))[3:5], ["place 0: 3 times", "place 1: no index"])

    def test_random_layouts(self):
        """Each index is drawn with its place, and each element once."""
        numbers = random.Random("pictures")
        for _ in range(300):
            shape = [numbers.randint(1, 3) for _ in range(numbers.randint(0, 3))]
            layout = Layout.over(64, shape, [numbers.randint(-9, 9) for _ in shape])
            words = titles(layout)
            self.assertEqual(len(words), layout.size + 64)
            drawn = [int(re.search(r"has place (\d+)$", word)[1]) for word in words[: layout.size]]
            self.assertEqual(tuple(drawn), layout.places())
            texts = [text.text for text in parts(layout, "text")]
            self.assertEqual(texts[2 : 2 * layout.size + 1 : 2], [str(place) for place in drawn])


class Schemes(unittest.TestCase):
    def texts(self, layout):
        return [text.text for text in parts(layout, "text")]

    def test_axes_and_stretch(self):
        texts = self.texts(Layout.over(10**6, (1000, 1000))[::-3, 5:90])
        self.assertIn("axis 0: length 334, stride -3,000", texts)
        self.assertIn("axis 1: length 85, stride 1", texts)
        self.assertIn("places 5 to 999,089 of 1,000,000, the start at 999,005", texts)
        self.assertIn("no place of 5", self.texts(Layout.over(5, (0, 3))))
        self.assertIn("3 axes before these, 4,096 indices", self.texts(Layout.over(4096, (2,) * 12)))

    def test_places(self):
        """How many indices share a place, and how many places have one, in words."""
        for layout, words in (
            (Layout.over(48, (6, 8)).windows((3, 4)), ["at most 12 indices share a place"]),
            (Layout.over(100, 100).broadcast_to((12, 100)), ["12 indices share each place"]),
            (Layout.over(10**6, 10**6)[::12], ["83,334 of these 999,997 places have an index, one of 12"]),
            (Layout.over(10**6, (1000, 1000))[:, 100:], ["900,000 of these 999,900 places have an index, 90%"]),
            (Layout.over(999, (100, 100, 9), (2, 3, 0)), ["some indices share a place, or may share one"]),
            (Layout.over(10**6, (1000, 1000)), []),
            (Layout.over(10**6, (0, 1000)), []),
        ):
            texts = self.texts(layout)
            at = next(at for at, text in enumerate(texts) if re.search("^(places .*, the start|no place)", text))
            self.assertEqual(texts[at + 1 :], words, layout)

    def test_counts_of_places(self):
        """The counts of places, beside those of each index."""
        numbers, seen = random.Random("counts"), Counter()
        for _ in range(10_000):
            shape = tuple(numbers.randint(1, 4) for _ in range(numbers.randint(0, 4)))
            strides = tuple(numbers.choice((0, 1, -1, 2, 3, 4, 6, 12)) for _ in shape)
            places = Counter(sum(map(int.__mul__, index, strides)) for index in product(*map(range, shape)))
            found = count_places(shape, strides)
            if found is not None:
                self.assertEqual(found, (len(places), max(places.values())), (shape, strides))
            seen["undecided" if found is None else "counted"] += 1
        print(f"test_counts_of_places: {dict(sorted(seen.items()))}")
        self.assertGreater(seen["counted"], 8_000)

    def test_axes_are_named(self):
        texts = self.texts(Layout.over(10**6, (100, 100, 100)))
        self.assertLess({"axis 0", "axis 1", "axis 2"}, {*texts})

    def test_any_layout_is_drawn(self):
        for layout in (Layout.over(0, 0), Layout.over(2**62, ()), Layout.over(2**63 - 1, 2**63 - 1), Layout.over(1, 1)):
            self.assertTrue(self.texts(layout))
        self.assertLess(len(Layout.over(1, (1,) * 60).broadcast_to((2,) * 60).to_svg()), 9_000)


class Tables(unittest.TestCase):
    def test_numbers(self):
        layout = Layout.over(memoryview(bytes(24)).cast("i"), (2, 3), writable=True)
        shown = layout._repr_html_()
        for name, value in (("shape", "(2, 3)"), ("strides", "(3, 1)"), ("bytes", "24, 4 each"), ("format", "i")):
            self.assertIn(f"<tr><th>{name}</th><td>{value}</td></tr>", shown)
        self.assertIn("<td>yes</td>", shown)
        self.assertIn(layout.to_svg(), shown)

    def test_formats_are_no_markup(self):
        layout = Layout(0, 1, 1, length=1, format="<script>")
        self.assertNotIn("<script>", layout._repr_html_())
        ElementTree.fromstring(layout._repr_html_())


if __name__ == "__main__":
    unittest.main()
