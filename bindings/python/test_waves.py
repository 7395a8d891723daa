"""`waves`, `chunks_of` and `aligned` beside sets of indices and of chunks, and regions by the names of axes.

    python3 test_waves.py
"""

import random
import unittest
from collections import Counter
from concurrent.futures import ThreadPoolExecutor
from itertools import accumulate, chain, combinations, product
from unittest import mock

import ndarray_layout as nd
from ndarray_layout import ShapeError, _boxes, _conflicts

try:
    import numpy as np
except ImportError:
    np = None

PLANS = 10_000


def touched(shape, region, chunks):
    """The numbers of the chunks along each axis that have an index of a region, each counted from index to index."""
    of_axes = [numbers_of(length, chunk) for length, chunk in zip(shape, chunks)]
    picks = [range(length)[entry] if isinstance(entry, slice) else (entry,) for length, entry in zip(shape, region)]
    return [sorted({numbers[at] for at in along}) for numbers, along in zip(of_axes, picks)]


def numbers_of(length, chunk):
    """The number of the chunk of each index."""
    if isinstance(chunk, int):
        return [index // chunk for index in range(length)]
    return [number for number, one in enumerate(chunk) for _ in range(one)]


def longest_chain(takes):
    """How many regions follow one another at most, each of which shares an index with the one before it."""
    chains = []
    for own in takes:
        chains.append(1 + max((length for length, other in zip(chains, takes) if own & other), default=0))
    return max(chains, default=0)


class Random:
    """Random shapes, chunks and regions."""

    def __init__(self, seed):
        self.numbers = random.Random(seed)

    def shape(self):
        return [self.numbers.choice((0, 1, 4, 7, 12)) for _ in range(self.numbers.choice((0, 1, 1, 2, 3)))]

    def chunks(self, shape):
        return [self.chunk(length) for length in shape]

    def chunk(self, length):
        if self.numbers.random() < 0.7:
            return self.numbers.choice((1, 2, 3, 5, 20))
        ends = sorted(self.numbers.randint(0, length) for _ in range(self.numbers.randint(0, 3))) + [length]
        return [end - begin for begin, end in zip([0, *ends], ends)]

    def region(self, shape):
        return tuple(self.entry(length) for length in shape)

    def entry(self, length):
        begin, step = self.numbers.randint(0, length), self.numbers.choice((1, 1, 1, 2, 3, 4, 6, -1, -2))
        if length and self.numbers.random() < 0.2:
            return min(begin, length - 1)
        end = self.numbers.choice((None, begin + 1, begin + 3, length))
        return slice(begin, end, step) if step > 0 else slice(end, begin and begin - 1, step)


class Waves(unittest.TestCase):
    def test_plans(self):
        """The order of the regions stays where they share an index, and no two of a wave touch a chunk."""
        draw, seen = Random("waves"), Counter()
        for number in range(PLANS):
            shape = draw.shape()
            chunks = draw.numbers.choice((None, draw.chunks(shape)))
            regions = [draw.region(shape) for _ in range(draw.numbers.choice((0, 1, 3, 6, 14, 25)))]
            takes = [{*product(*touched(shape, region, [1] * len(shape)))} for region in regions]
            touches = takes if chunks is None else [{*product(*touched(shape, region, chunks))} for region in regions]
            with mock.patch.object(_boxes, "FEW", (1, 2, _boxes.FEW)[number % 3]):
                with mock.patch.object(_conflicts, "MOST_CUT", (0, _conflicts.MOST_CUT)[number % 2]):
                    waves = nd.waves(shape, regions, chunks)
            self.check(waves, takes, touches, (shape, regions, chunks))
            seen[min(len(waves), 5)] += 1
        print(f"test_plans: plans by their waves, 5 for more, {dict(sorted(seen.items()))}")
        self.assertGreater(min(seen[number] for number in range(6)), PLANS // 50)

    def check(self, waves, takes, touches, plan):
        self.assertEqual(sorted(chain(*waves)), [*range(len(takes))], plan)
        wave_of = {position: number for number, wave in enumerate(waves) for position in wave}
        for one, other in combinations(range(len(takes)), 2):
            if takes[one] & takes[other]:
                self.assertLess(wave_of[one], wave_of[other], plan)
            elif touches[one] & touches[other]:
                self.assertNotEqual(wave_of[one], wave_of[other], plan)
        for before, wave in zip([[], *waves], waves):
            self.assertEqual(wave, sorted(wave))
            self.assertTrue(wave, plan)
            for position in wave if before else ():
                self.assertTrue(any(touches[position] & touches[other] for other in before), (plan, position))
        if touches is takes:
            self.assertEqual(len(waves), longest_chain(takes), plan)

    def test_intervals(self):
        """Intervals apart from each other are in as many waves as some chunk has of them, in whatever order they come."""
        numbers = random.Random("intervals")
        for _ in range(PLANS):
            length, chunk = numbers.randint(1, 60), numbers.choice((1, 2, 5, 9))
            cuts = sorted({0, length, *(numbers.randrange(length) for _ in range(numbers.randint(1, 30)))})
            regions = [slice(begin, end - (end - begin > 2)) for begin, end in zip(cuts, cuts[1:])]
            numbers.shuffle(regions)
            most = Counter(number for region in regions for number in touched([length], [region], [chunk])[0])
            self.assertEqual(len(nd.waves(length, regions, chunk)), max(most.values()), (length, regions, chunk))

    @unittest.skipUnless(np, "NumPy is missing")
    def test_writers(self):
        """Threads that assign, those of a wave at once, leave what assignments one after another leave."""
        numbers = random.Random("writers")
        for number in range(20):
            shape, chunks = (90, 70), (None, (16, 16))[number % 2]
            corners = [[sorted(numbers.sample(range(length + 1), 2)) for length in shape] for _ in range(60)]
            regions = [tuple(slice(*ends, numbers.choice((1, 1, 2, 3))) for ends in corner) for corner in corners]
            expected, found = np.zeros(shape, int), np.zeros(shape, int)
            for position, region in enumerate(regions):
                expected[region] = position

            def write(position):
                found[regions[position]] = position

            with ThreadPoolExecutor(4) as threads:
                for wave in nd.waves(shape, regions, chunks):
                    list(threads.map(write, wave))
            self.assertEqual(np.count_nonzero(found != expected), 0)

    def test_boxes(self):
        """Boxes of which all hang together, along two and three axes: all pairs that share an index are found."""
        numbers = random.Random("boxes")
        for number in range(PLANS // 10):
            shape = [numbers.choice((6, 30, 60)) for _ in range(numbers.choice((2, 3)))]
            boxes = []
            for _ in range(numbers.randint(9, 60)):
                begins = [numbers.randrange(length) for length in shape]
                boxes.append(tuple(slice(at, at + numbers.choice((1, 2, 9, 60))) for at in begins))
            sets = [{*product(*touched(shape, box, [1] * len(shape)))} for box in boxes] if number % 10 == 0 else None
            with mock.patch.object(_boxes, "FEW", (1, _boxes.FEW)[number % 2]):
                waves = nd.waves(shape, boxes)
            if sets is not None:
                self.check(waves, sets, sets, (shape, boxes))
            for wave in waves:
                self.assertIsNone(nd.first_conflict(shape, [boxes[position] for position in wave]))

    def test_many(self):
        """20,000 rows over chunks of 40, of which all 40 conflict, and 10,000 tiles with a border of their neighbours."""
        rows = [*range(20_000)]
        random.Random(1).shuffle(rows)
        waves = nd.waves((20_000, 5), rows, chunks=(40, 5))
        self.assertEqual([len(wave) for wave in waves], [500] * 40)
        self.assertEqual(nd.waves((20_000, 5), rows), [[*range(20_000)]])
        self.assertEqual(nd.waves(9, [slice(0, 9)] * 5_000, chunks=4), [[position] for position in range(5_000)])
        corners = [*product(range(100), repeat=2)]
        in_rows = [2 * row + column for row, column in corners]  # (each is after that on its left, and that above on its right)
        for wave_of in (in_rows, [2 * (row % 2) + column % 2 for row, column in corners]):
            order = sorted(range(10_000), key=wave_of.__getitem__) if max(wave_of) == 3 else range(10_000)
            tiles = [tuple(slice(10 * at, 10 * at + 12) for at in corners[position]) for position in order]
            found = nd.waves((1_002, 1_002), tiles)
            self.assertTrue(all(wave_of[order[at]] == number for number, wave in enumerate(found) for at in wave))
            self.assertEqual(sum(map(len, found)), 10_000)

    def test_steps_that_differ(self):
        """Rows of three steps along one axis: the library says which of those conflict whose stretches overlap."""
        regions = [slice(begin, None, step) for step in (4, 6, 9) for begin in range(step)]
        waves, sets = nd.waves(36, regions), [{*range(36)[region]} for region in regions]
        self.check(waves, sets, sets, regions)
        self.assertEqual(waves, [[*range(4)], [*range(4, 10)], [*range(10, 19)]])

    def test_many_steps_that_differ(self):
        """10,000 columns side by side, of which few conflict: their numbers are taken one by one, and not each two columns."""
        columns = [(slice(None), slice(begin, None, 10_000 + begin % 7)) for begin in range(10_000)]
        with mock.patch.object(_conflicts.native, "share_index", None):
            waves = nd.waves((5, 30_000), columns)
        first, second = ([range(30_000)[columns[position][1]] for position in wave] for wave in waves)
        taken = {*chain(*first)}
        self.assertEqual((len(taken), len({*chain(*second)})), (sum(map(len, first)), sum(map(len, second))))
        self.assertTrue(all(taken.intersection(numbers) for numbers in second))
        self.assertEqual(len(first) + len(second), 10_000)

    def test_blocks(self):
        shape, chunks, halves = (8, 6), (4, 6), [slice(0, 4), slice(4, 8)]
        self.assertEqual(nd.waves(shape, halves, chunks, [((4,), (6,)), None]), [[0, 1]])
        with self.assertRaises(ShapeError) as caught:
            nd.waves(shape, halves, chunks, [((4,), (6,)), ((2, 2), (6,))])
        error = caught.exception
        text = "region 1: two of its blocks write to one chunk, so it is in no wave; its blocks may be rechunked"
        self.assertEqual((error.text, error.kind, error.numbers), (text, "Unsupported", {"region": 1}))

    def test_none(self):
        self.assertEqual(nd.waves(5, []), [])
        self.assertEqual(nd.waves(5, [slice(3, 3), slice(9, None)]), [[0, 1]])
        self.assertEqual(nd.waves(5, [slice(3, 3), 0, 0, slice(2, 1)]), [[0, 1, 3], [2]])
        self.assertEqual(nd.waves((), [(), ..., ()]), [[0], [1], [2]])


class ChunksOfARegion(unittest.TestCase):
    def test_regions(self):
        """Which chunks a region touches, and the least stretch of whole chunks around it."""
        draw = Random("chunks of")
        for _ in range(PLANS):
            shape = draw.shape()
            chunks, region = draw.chunks(shape), draw.region(shape)
            expected = touched(shape, region, chunks)
            touches = nd.chunks_of(shape, region, chunks)
            self.assertEqual([[*along] for along in touches], expected, (shape, region, chunks))
            for along in touches:
                is_even = len({number - before for before, number in zip(along, along[1:])}) < 2
                self.assertIs(type(along), range if is_even else tuple, (shape, region, chunks))
            found = nd.aligned(shape, region, chunks)
            for along, length, chunk, numbers in zip(found, shape, chunks, expected):
                self.assertEqual(along, self.around(length, chunk, numbers), (shape, region, chunks))
            around = touched(shape, found, chunks)
            self.assertTrue(all({*few} <= {*many} for few, many in zip(expected, around)))

    def around(self, length, chunk, numbers):
        """The stretch from the first chunk to the last."""
        if not numbers:
            return slice(0, 0)
        ends = [*accumulate([chunk] * -(-length // chunk) if isinstance(chunk, int) else chunk)]
        return slice([0, *ends][numbers[0]], min(ends[numbers[-1]], length))

    def test_far(self):
        """No list is made of chunks, however many they are."""
        self.assertEqual(nd.chunks_of(2**62, slice(5, None), 4), (range(1, 2**60),))
        self.assertEqual(nd.aligned(2**62, slice(5, None, 2**40), 4), (slice(4, 2**62 - 2**40 + 8),))

    def test_errors(self):
        for call in (nd.chunks_of, nd.aligned):
            with self.assertRaisesRegex(IndexError, "^axis 0: index 9 is out of bounds of length 9"):
                call(9, 9, 2)
            with self.assertRaisesRegex(ShapeError, "axis 0: the length of a chunk is 0"):
                call(9, 0, 0)
            self.assertRaises(TypeError, call, 9, [0, 1], 2)


class OneOrMany(unittest.TestCase):
    """A tuple of slices is one region of NumPy's, so it is no list of them where the shape has as many axes."""

    def test_tuples(self):
        halves = slice(0, 3), slice(3, 6)
        layout = nd.Layout.over(36, (6, 6))
        for call, name in ((nd.waves, "region"), (nd.first_conflict, "region"), (lambda _, keys: layout.first_intersection(keys), "key")):
            for tuples in (halves, (0, 1), (..., 0), (slice(0, 3), None, 2), (nd.Slice(0, 3), 1), nd.Slice(0, 3)):
                text = rf"^{name}s: .* may be one {name} or {len(tuples)}; a list says which, as \[{name}\]$"
                self.assertRaisesRegex(TypeError, text, call, (6, 6), tuples)
            self.assertEqual(call((6, 6), [*halves]), call((6, 6), iter(halves)))
            self.assertEqual(call((6, 6), (halves, 0)), call((6, 6), [halves, 0]))
            self.assertEqual(call((6, 6), (0, 1, 0)), call((6, 6), [0, 1, 0]))
            self.assertEqual(call((6, 6), (halves[0],)), call((6, 6), [halves[:1]]))
        self.assertEqual(nd.waves(6, halves), [[0, 1]])
        self.assertIsNone(nd.first_conflict(6, halves, chunks=3))


class Names(unittest.TestCase):
    """Regions by the names of axes, as xarray has them."""

    def test_regions(self):
        """A dict stands for the key with its entries in the order of `dims`."""
        draw, dims = Random("names"), ["time", "y", "x"]
        for _ in range(PLANS // 5):
            shape = draw.shape()
            names, regions = dims[: len(shape)], [draw.region(shape) for _ in range(4)]
            by_name = [{name: entry for name, entry in zip(names, region)} for region in regions]
            for at, region in enumerate(by_name):
                if region and draw.numbers.random() < 0.3:
                    del region[draw.numbers.choice([*region])]
                    regions[at] = tuple(region.get(other, slice(None)) for other in names)
            chunks = [3] * len(shape)
            for call in (nd.first_conflict, nd.waves):
                self.assertEqual(call(shape, by_name, dims=names), call(shape, regions))
                self.assertEqual(call(shape, by_name, chunks, dims=names), call(shape, regions, chunks))
            self.assertEqual(nd.chunks_of(shape, by_name[0], chunks, dims=names), nd.chunks_of(shape, regions[0], chunks))
            found = nd.aligned(shape, by_name[0], chunks, dims=iter(names))
            around = dict(zip(names, nd.aligned(shape, regions[0], chunks)))
            self.assertEqual(found, {name: around[name] for name in names if name in by_name[0]})

    def test_keys_among_names(self):
        """A key without names is a key with `dims` too, and one axis may be named by a word alone."""
        self.assertEqual(nd.waves((4, 6), [{"x": 0}, (0, 0), (..., 1)], dims=("y", "x")), [[0, 2], [1]])
        self.assertEqual(nd.first_conflict(6, [{"x": 1}, {}], dims="x"), (0, 1))

    def test_errors(self):
        for regions, dims, error, text in (
            ([0, {"x": 0}], None, TypeError, "region 1: dims= is missing, the names of all axes in their order: {'x': 0} has names"),
            ([{"z": 0}], "yx", ShapeError, "IncompatibleShape: dims has 1 names for 2 axes"),
            ([{"z": 0}], ("y", "x"), ShapeError, "IncompatibleShape: region 0: 'z' is none of the dims ('y', 'x')"),
            ([0], ("y", "y"), ShapeError, "BadArgument: axis 1: the name 'y' is there twice in dims"),
            ([{"x": None}], ("y", "x"), TypeError, "region 0: axis 1: None is no integer or slice"),
            ([{"x": ...}], ("y", "x"), TypeError, "region 0: axis 1: Ellipsis is no integer or slice"),
            ([{"x": "auto"}], ("y", "x"), TypeError, "region 0: axis 1: 'auto' is no basic slice: an entry is an integer, a slice, `...` or `None`"),
            ([{"x": 6}], ("y", "x"), IndexError, "region 0: axis 1: index 6 is out of bounds of length 6"),
        ):
            for call in (nd.first_conflict, nd.waves):
                with self.subTest(text), self.assertRaises(error) as caught:
                    call((4, 6), regions, dims=dims)
                self.assertEqual(str(caught.exception), text)

    @unittest.skipUnless(np, "NumPy is missing")
    def test_integers_of_numpy(self):
        """Shapes, chunks, blocks, integers and bounds of NumPy are those of Python."""
        numbers = np.arange(6)
        regions = [(numbers[2], slice(numbers[1], numbers[3])), numbers[2], (slice(None, None, -numbers[1]), numbers[5])]
        plain = [(2, slice(1, 3)), 2, (slice(None, None, -1), 5)]
        shape, chunks = np.array((4, 6)), np.array((2, 3), np.uint8)
        for call in (nd.waves, nd.first_conflict):
            self.assertEqual(call(shape, regions, chunks), call((4, 6), plain, (2, 3)))
        for call in (nd.chunks_of, nd.aligned):
            self.assertEqual(call(shape, regions[0], chunks), call((4, 6), plain[0], (2, 3)))
        blocks = [((numbers[2],),), (np.array([3, 3]),), (np.array([4]),)]
        self.assertEqual(nd.waves(shape, regions, chunks, blocks), nd.waves((4, 6), plain, (2, 3)))


if __name__ == "__main__":
    unittest.main()
