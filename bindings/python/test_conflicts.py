"""`first_conflict` and `first_intersection` beside sets of indices and of chunks, and how long they take.

    python3 test_conflicts.py
"""

import random
import signal
import subprocess
import sys
import time
import unittest
from collections import Counter
from itertools import accumulate, combinations, combinations_with_replacement, product
from unittest import mock

import ndarray_layout as nd
from ndarray_layout import LayoutError, ShapeError, Slice, _boxes, _conflicts

PLANS = 20_000


def indices_of(shape, key):
    """Each index that a key takes, by Python's own lists; of a `Slice` by the rule in docs/RULES.md."""
    entries = [entry for entry in (key if type(key) is tuple else (key,)) if entry is not None]
    if ... in entries:
        gap = entries.index(...)
        entries[gap : gap + 1] = [slice(None)] * (len(shape) - len(entries) + 1)
    entries += [slice(None)] * (len(shape) - len(entries))
    return set(product(*(picks_of(length, entry) for length, entry in zip(shape, entries))))


def chunks_of(indices, chunks):
    return {tuple(i // chunk for i, chunk in zip(index, chunks)) for index in indices}


def picks_of(length, entry):
    if isinstance(entry, Slice):
        start, end, step = entry
        end = length if end is None else end
        stretch = list(range(length))[start + length * (start < 0) : end + length * (end < 0)]
        return stretch[::step]
    picks = list(range(length))[entry]
    return picks if isinstance(entry, slice) else [picks]


class Plans(unittest.TestCase):
    """20,000 random plans of up to six keys each."""

    def setUp(self):
        self.numbers = random.Random(self.id().rpartition(".")[2])
        self.seen = Counter()

    def tearDown(self):
        print(f"{self._testMethodName}: " + ", ".join(f"{name} {count}" for name, count in sorted(self.seen.items())))
        self.assertGreater(min(self.seen["conflicts"], self.seen["none"]), PLANS // 10)

    def entry(self, length):
        numbers = self.numbers
        if length and numbers.random() < 0.2:
            return numbers.randint(-length, length - 1)
        if numbers.random() < 0.1:
            return Slice(numbers.randint(0, length), None, numbers.choice((1, 2, -1, -3)))
        begin = numbers.randint(-length - 1, length)
        end = numbers.choice((None, begin + numbers.randint(1, 9), begin + numbers.randint(1, 4)))
        end = None if end is not None and begin < 0 <= end else end
        key = slice(begin, end, numbers.choice((None, 1, 2, 3, 4, 5, 7)))
        return key if numbers.random() < 0.7 else slice(end, begin, numbers.choice((-1, -2, -3, -5)))

    def key(self, shape):
        entries = [self.entry(length) for length in shape]
        if self.numbers.random() < 0.1:
            entries.insert(self.numbers.randint(0, len(entries)), None)
        if self.numbers.random() < 0.1 and entries:
            entries[self.numbers.randrange(len(entries)) :] = [...]
        return entries[0] if len(entries) == 1 and entries[0] is not None else tuple(entries)

    def plans(self):
        for _ in range(PLANS):
            shape = tuple(self.numbers.choice((0, 1, 3, 5, 8, 8, 13, 13)) for _ in range(self.numbers.randint(0, 3)))
            yield shape, [self.key(shape) for _ in range(self.numbers.randint(0, 6))]

    def compare(self, found, sets, plan):
        expected = {pair for pair in combinations(range(len(sets)), 2) if sets[pair[0]] & sets[pair[1]]}
        if expected:
            self.assertIn(found, expected, plan)
        else:
            self.assertIsNone(found, plan)
        self.seen["conflicts" if expected else "none"] += 1

    def test_elements(self):
        for shape, keys in self.plans():
            self.compare(nd.first_conflict(shape, keys), [indices_of(shape, key) for key in keys], (shape, keys))

    def test_chunks(self):
        for shape, keys in self.plans():
            chunks = tuple(self.numbers.choice((1, 2, 3, 4, 6, 20)) for _ in shape)
            sets = [chunks_of(indices_of(shape, key), chunks) for key in keys]
            self.compare(nd.first_conflict(shape, keys, chunks), sets, (shape, keys, chunks))

    def test_slices(self):
        """`first_intersection`, of the layer's own elements."""
        for shape, keys in self.plans():
            elems = [nd.basic_key(shape, key) for key in keys]
            found = nd.first_intersection(shape, elems)
            self.compare(found, [indices_of(shape, key) for key in keys], (shape, keys))


class ManyKeys(unittest.TestCase):
    """Plans of up to 60 keys, most of which share nothing with an earlier one: so all of them have to be compared.

    The counts of what is compared each with each are small, so that a few keys take the way of many.
    """

    PLANS = 2_000
    STEPS = ((1,), (1, 3), (1, 5), (1, 2, 4), (2, 3, 6))

    def test_plans(self):
        numbers, seen = random.Random("many keys"), Counter()
        for _ in range(self.PLANS):
            shape = tuple(numbers.choice((1, 3, 6, 12, 25)) for _ in range(numbers.randint(1, 4)))
            chunks = numbers.choice((None, tuple(numbers.choice((1, 2, 3, 4)) for _ in shape)))
            keys, sets = self.plan(numbers, shape, chunks or (1,) * len(shape))
            expected = {pair for pair in combinations(range(len(sets)), 2) if sets[pair[0]] & sets[pair[1]]}
            few, piece = mock.patch.object(_boxes, "FEW", 1), mock.patch.object(_conflicts, "PIECE", 2)
            with few, piece:
                found = nd.first_conflict(shape, keys, chunks)
            self.assertIn(found, expected or {None}, (shape, keys, chunks))
            seen["conflicts" if expected else "none"] += 1
        print(f"test_plans of many keys: {dict(sorted(seen.items()))}")
        self.assertGreater(min(seen.values()), self.PLANS // 5)

    def plan(self, numbers, shape, chunks):
        keys, sets, taken, steps = [], [], set(), numbers.choice(self.STEPS)
        for _ in range(numbers.choice((10, 40, 120))):
            key = tuple(self.entry(numbers, length, steps) for length in shape)
            touched = chunks_of(indices_of(shape, key), chunks)
            if len(keys) < 60 and (taken.isdisjoint(touched) or numbers.random() < 0.01):
                keys.append(key)
                sets.append(touched)
                taken |= touched
        return keys, sets

    def entry(self, numbers, length, steps):
        begin = numbers.randrange(length)
        kind = numbers.random()
        if kind < 0.5:
            return begin if kind < 0.3 else slice(None)
        return slice(begin, begin + numbers.choice((1, 2, 3, 6, length)), numbers.choice(steps))


class Blocks(unittest.TestCase):
    """The blocks of what is written, beside sets of chunks for each of them."""

    PLANS = 5_000

    def test_plans(self):
        numbers, seen = random.Random("blocks"), Counter()
        for _ in range(self.PLANS):
            shape = tuple(numbers.choice((0, 1, 5, 8, 13)) for _ in range(numbers.randint(1, 3)))
            chunks = tuple(numbers.choice((1, 2, 3, 4)) for _ in shape)
            keys = [tuple(self.entry(numbers, length) for length in shape) for _ in range(numbers.choice((1, 1, 2, 3)))]
            blocks = [self.cuts(numbers, shape, key, chunks) for key in keys]
            of_keys = [self.chunks_of_blocks(shape, *pair, chunks) for pair in zip(keys, blocks)]
            pairs = combinations_with_replacement(range(len(keys)), 2)
            expected = {pair for pair in pairs if self.race(of_keys, *pair)}
            found = nd.first_conflict(shape, keys, chunks, blocks=blocks)
            self.assertIn(found, expected or {None}, (shape, keys, chunks, blocks))
            alone = expected and all(one == other for one, other in expected)
            seen["within a key" if alone else "two keys" if expected else "none"] += 1
        print(f"test_plans of blocks: {dict(sorted(seen.items()))}")
        self.assertGreater(min(seen.values()), self.PLANS // 20)

    def entry(self, numbers, length):
        if length and numbers.random() < 0.2:
            return numbers.randint(-length, length - 1)
        begin, step = numbers.randint(0, length), numbers.choice((1, 1, 2, 3, 5))
        return numbers.choice((slice(begin, None, step), slice(begin, None, -step), slice(0, begin, step)))

    def cuts(self, numbers, shape, key, chunks):
        """The lengths of blocks along each axis that is left: those of the chunks, one, or any. `None` is one block."""
        if numbers.random() < 0.1:
            return None
        counts = [
            (len(picks_of(length, entry)), chunk)
            for length, entry, chunk in zip(shape, key, chunks)
            if isinstance(entry, slice)
        ]
        return tuple(self.cut(numbers, *count) for count in counts)

    def cut(self, numbers, count, chunk):
        if numbers.random() < 0.4:
            return numbers.choice(((count,), (chunk,) * (count // chunk) + (count % chunk,), (0, count, 0)))
        ends = sorted(numbers.randint(0, count) for _ in range(3))
        return (ends[0], ends[1] - ends[0], ends[2] - ends[1], count - ends[2])

    def chunks_of_blocks(self, shape, key, blocks, chunks):
        """The chunks that each block touches."""
        if blocks is None:
            return [chunks_of(indices_of(shape, key), chunks)]
        lengths = iter(blocks)
        along = [
            self.parted(picks_of(length, entry), next(lengths) if isinstance(entry, slice) else (1,))
            for length, entry in zip(shape, key)
        ]
        return [chunks_of(product(*picks), chunks) for picks in product(*along)]

    def parted(self, picks, lengths):
        return [picks[end - length : end] for length, end in zip(lengths, accumulate(lengths))]

    def race(self, of_keys, one, other):
        pairs = combinations(of_keys[one], 2) if one == other else product(of_keys[one], of_keys[other])
        return any(first & second for first, second in pairs)

    def test_blocks_of_dask(self):
        """Blocks of 5 rows over chunks of 4: the fifth row is in the second chunk, with the first of the next block."""
        whole, source = [...], ((5, 5), (6,))
        self.assertIsNone(nd.first_conflict((10, 6), whole, chunks=(4, 6)))
        self.assertEqual(nd.first_conflict((10, 6), whole, chunks=(4, 6), blocks=[source]), (0, 0))
        self.assertIsNone(nd.first_conflict((10, 6), whole, chunks=(5, 6), blocks=[source]))
        self.assertIsNone(nd.first_conflict((10, 6), whole, chunks=(4, 6), blocks=[((8, 2), (6,))]))
        self.assertIsNone(nd.first_conflict((10, 6), whole, blocks=[source]))
        empty = [(slice(5, 5), ...)]
        self.assertIsNone(nd.first_conflict((10, 6), empty, chunks=(4, 6), blocks=[((0, 0), (3, 3))]))

    def test_axes_of_the_part(self):
        """An integer leaves no axis, and `None` one of length 1."""
        keys = [(3, None, slice(None, None, -1))]
        self.assertIsNone(nd.first_conflict((10, 6), keys, (4, 2), blocks=[((1,), (2, 4))]))
        self.assertEqual(nd.first_conflict((10, 6), keys, (4, 2), blocks=[((1,), (3, 3))]), (0, 0))

    def test_errors(self):
        def call(*blocks):
            return nd.first_conflict((10, 6), [slice(0, 4), slice(4, 10)], (4, 6), blocks=blocks)

        for blocks, text, axis in (
            ((None,), "1 lists of blocks for 2 regions", None),
            ((None, ((6,),)), "region 1: blocks of 1 axes for 2", None),
            ((None, ((6,), (3, 4))), "region 1: axis 1: the blocks have 7 of 6 indices", 1),
            ((((), (6,)), None), "region 0: axis 0: the blocks have 0 of 4 indices", 0),
        ):
            with self.assertRaises(ShapeError) as caught:
                call(*blocks)
            self.assertEqual((caught.exception.text, caught.exception.axis), (text, axis))
            self.assertEqual(caught.exception.kind, "IncompatibleShape")
        with self.assertRaisesRegex(OverflowError, "region 0: axis 0: block -1 is negative"):
            call(((5, -1), (6,)), None)
        for length in (float("nan"), None, "2"):
            with self.assertRaisesRegex(TypeError, "^region 1: axis 1: the length of a block is an integer"):
                call(None, ((6,), (length,)))
        self.assertRaises(TypeError, call, 5, None)
        for blocks in (5, {0: None, 1: None}):
            self.assertRaises(TypeError, nd.first_conflict, 6, [0, 1], blocks=blocks)


class Conflicts(unittest.TestCase):
    def test_regions_of_a_store(self):
        """Regions that share no element, and chunks of other lengths."""
        regions = [slice(at, at + 15) for at in range(0, 3_000, 15)]
        self.assertIsNone(nd.first_conflict(3_000, regions))
        self.assertIsNone(nd.first_conflict(3_000, regions, chunks=5))
        self.assertIsNone(nd.first_conflict(3_000, regions[::2], chunks=10))
        self.assertEqual(nd.first_conflict(3_000, regions, chunks=10), (0, 1))

    def test_tiles(self):
        """Many tiles, in order and in none, along either axis, and one that is there twice."""
        for rows, columns in ((300, 30), (30, 300), (9_000, 1), (1, 9_000)):
            shape = rows * 10, columns * 10
            tiles = [
                (slice(i, i + 10), slice(j, j + 10)) for i in range(0, shape[0], 10) for j in range(0, shape[1], 10)
            ]
            for _ in range(2):
                self.assertIsNone(nd.first_conflict(shape, tiles))
                self.assertIsNone(nd.first_conflict(shape, tiles, chunks=(10, 5)))
                self.assertEqual(nd.first_conflict(shape, [*tiles, tiles[7]]), (7, 9_000))
                random.Random(1).shuffle(tiles)

    def test_no_order_takes_no_longer(self):
        """Tiles in no order are sorted: to compare each with each would take 20 times as long."""
        tiles = [(slice(i, i + 10), slice(j, j + 10)) for i in range(0, 3_000, 10) for j in range(0, 1_000, 10)]
        in_order = self.seconds((3_000, 1_000), tiles)
        random.Random(1).shuffle(tiles)
        self.assertLess(self.seconds((3_000, 1_000), tiles), 8 * in_order)

    def seconds(self, shape, keys):
        began = time.process_time()
        self.assertIsNone(nd.first_conflict(shape, keys))
        return time.process_time() - began

    def test_large_arrays(self):
        shape = (2**31, 2**31)
        halves = [(..., slice(0, 2**30)), (..., slice(2**30, None)), (-1, slice(2**30, None, 2**20))]
        self.assertEqual(nd.first_conflict(shape, halves), (1, 2))
        self.assertIsNone(nd.first_conflict(shape, halves[:2], chunks=(1, 2**20)))
        for step in (2**63 - 1, 2**63, 10**30, -(2**63), -(10**30)):
            far = [slice(0, None, abs(step)), slice(7, None, step), slice(8, None, step)]
            self.assertIsNone(nd.first_conflict(2**63 - 1, far))
            self.assertEqual(nd.first_conflict(2**63 - 1, far, chunks=8), (0, 1))
        self.assertEqual(nd.first_conflict(shape, halves[:2], chunks=(1, 2**31 - 1)), (0, 1))

    def test_errors(self):
        self.assertRaises(OverflowError, nd.first_conflict, (2**32, 2**32), [])
        self.assertRaises(OverflowError, nd.first_conflict, (4,), [0], chunks=-2)
        self.assertRaises(ShapeError, nd.first_conflict, (4, 4), [0], chunks=(2,))
        self.assertRaises(ShapeError, nd.first_conflict, (4, 4), [0], chunks=(2, 0))
        self.assertRaises(TypeError, nd.first_conflict, (4,), [0, [1, 2]])
        self.assertRaises(TypeError, nd.first_conflict, (4,), [True])
        self.assertRaises(TypeError, nd.first_conflict, (4,), {0, 1})
        self.assertRaises(TypeError, nd.first_conflict, (4,), [0], max_parts=None)
        self.assertRaises(ShapeError, nd.first_conflict, (4,), [0], chunks=((10**5_000,),))
        with self.assertRaisesRegex(TypeError, "^axis 1: chunk is an integer, not 2.5"):
            nd.first_conflict((4, 4), [0], chunks=(2, 2.5))
        with self.assertRaisesRegex(TypeError, "^region 1: axis 0: slice indices must be integers"):
            nd.first_conflict((4, 4), [0, slice("a", 2)])
        with self.assertRaisesRegex(IndexError, "^region 1: 2 of the indices are '...'"):
            nd.first_conflict((4, 4), [0, (slice("a", 2), ..., ...)])
        for outside in (4, -5, (0, 0), (..., ...), (..., 0, ...), (slice(4), 0, ...)):
            self.assertRaises(IndexError, nd.first_conflict, (4,), [outside])
        self.assertRaises(ValueError, nd.first_conflict, (4,), [slice(0, 4, 0)])
        with self.assertRaises(IndexError) as caught:
            nd.first_conflict((4, 4), [0, (slice(0, 0), 9)])
        self.assertEqual(str(caught.exception), "region 1: axis 1: index 9 is out of bounds of length 4")
        self.assertEqual((caught.exception.axis, caught.exception.numbers["region"]), (1, 1))
        with self.assertRaises(IndexError) as caught:
            nd.first_conflict((4, 4), [0, 1, (2, Slice(0, 5))])
        self.assertEqual(str(caught.exception), "region 2: axis 1: bound 5 is past length 4, and isn't clamped; clamp=True moves it to the end, as NumPy does")
        with self.assertRaises(LayoutError) as caught:
            nd.first_intersection((4, 4), [[0, 0], [0, Slice(0, 9)]])
        self.assertEqual(str(caught.exception), "slice 1: axis 1: bound 9 is past length 4, and isn't clamped; clamp=True moves it to the end, as NumPy does")

    def test_one_of_the_first(self):
        """Where each region conflicts with the next, it is the first of them."""
        self.assertEqual(nd.first_conflict(3_000, [slice(at, at + 16) for at in range(0, 3_000, 15)]), (0, 1))

    def test_steps_that_differ(self):
        """Steps of 24 and one of 2, which goes past a multiple of 24."""
        keys = [*(slice(begin, None, 24) for begin in range(1, 24, 2)), slice(20, 27, 2), slice(0, None, 24)]
        self.assertEqual(nd.first_conflict(100, keys), (12, 13))
        self.assertIsNone(nd.first_conflict(100, keys[:-1]))

    def test_parts_are_counted(self):
        """A step past the chunk and no multiple of it: more progressions than are allowed."""
        key = slice(0, None, 1_001)
        self.assertIsNone(nd.first_conflict(10**7, [key], chunks=1_000, max_parts=1_000))
        with self.assertRaises(ShapeError) as caught:
            nd.first_conflict(10**7, [key], chunks=1_000, max_parts=999)
        self.assertEqual(caught.exception.kind, "Undecided")
        with self.assertRaises(ShapeError):  # (at once, without a list of them)
            nd.first_conflict(2**62, [slice(0, None, 10**9 + 1)], chunks=10**9)
        self.assertIsNone(nd.first_conflict((4, 4), []))
        self.assertEqual(nd.first_conflict((), [(), ()]), (0, 1))


LINES = """
import resource
from itertools import product
import ndarray_layout as nd

resource.setrlimit(resource.RLIMIT_CPU, (30, 30))

def lines(axes, count):
    points = [(axis, point) for axis in range(axes) for point in product(range(axis, count, axes), repeat=axes - 1)]
    return (count,) * axes, [(*point[:axis], slice(None), *point[axis:]) for axis, point in points]

def columns(count):
    families = (0, 6, count), (1, 10, count + 1), (2, 15, count + 2)
    keys = [(slice(a, None, b), slice(k, None, n)) for a, b, n in families for k in range(n)]
    return (60, 2 * count), keys
"""
"""Lines along each axis that cross and never touch, and columns that interleave by three steps on each axis.

The time is that of a processor: other programs may run beside the test.
"""


class Times(unittest.TestCase):
    """What once took minutes, or had no end."""

    def test_tiles(self):
        """100,000 tiles take a few times as long as a dict of the numbers of their chunks."""
        for counts in ((20, 20, 25, 10), (10,) * 5):
            shape = [10 * count for count in counts]
            corners = product(*(range(0, length, 10) for length in shape))
            tiles = [tuple([slice(at, at + 10) for at in corner]) for corner in corners]
            for chunks in (None, (10,) * len(shape)):
                by_table, began = self.seconds_of_a_table(tiles), time.process_time()
                self.assertIsNone(nd.first_conflict(shape, tiles, chunks))
                self.assertLess(time.process_time() - began, 10 * by_table)

    def seconds_of_a_table(self, tiles):
        began, first = time.process_time(), {}
        for position, tile in enumerate(tiles):
            ranges = [range(entry.start // 10, (entry.stop - 1) // 10 + 1) for entry in tile]
            for chunk in product(*ranges):
                self.assertEqual(first.setdefault(chunk, position), position)
        return time.process_time() - began

    def assert_none_in_time(self, call):
        """That a call in another process ends: the library can't be stopped in this one."""
        program = f"{LINES}\nprint({call})"
        run = subprocess.run([sys.executable, "-c", program], capture_output=True, text=True)
        self.assertEqual((run.stdout, run.stderr), ("None\n", ""))

    def test_slices_in_no_order(self):
        """20,000 rows in no order, as slices of the layer and as keys: each with each took seconds, and heard nothing."""
        rows = [*range(20_000)]
        random.Random(1).shuffle(rows)
        slices = [[row, Slice()] for row in rows]
        layout, began = nd.Layout.over(100_000, (20_000, 5)), time.process_time()
        self.assertIsNone(nd.first_intersection((20_000, 5), slices))
        self.assertIsNone(layout.first_intersection(rows))
        self.assertLess(time.process_time() - began, 2)
        self.assertEqual(nd.first_intersection((20_000, 5), [*slices, [rows[7], 4]]), (7, 20_000))

    def test_lines(self):
        """90,000 lines that cross: rows of one plane over columns of another, and lines along three axes."""
        rows, columns = "[(0, at) for at in range(45_000)]", "[(1, slice(None), at) for at in range(45_000)]"
        self.assert_none_in_time(f"nd.first_conflict((2, 45_000, 45_000), {rows} + {columns})")
        self.assert_none_in_time("nd.first_conflict(*lines(3, 520))")

    def test_interleaved_columns(self):
        keys = "[(..., slice(k, None, 50_000)) for k in range(50_000)]"
        self.assert_none_in_time(f"nd.first_conflict((3, 100_000), {keys})")

    def test_steps_over_chunks(self):
        """A pick for each chunk, and as many progressions as a chunk has numbers."""
        for length, step in ((10**10, 500_001), (10**12, -750_001)):
            self.assert_none_in_time(f"nd.first_conflict({length}, [slice(None, None, {step})], chunks=500_000)")

    def test_interrupt(self):
        """Boxes, and steps that differ, which the library compares each with each."""
        lines, columns = "*lines(5, 75)", "*columns(20_000)"
        slices = "shape, [[nd.Slice(*entry.indices(length)) for length, entry in zip(shape, key)] for key in keys]"
        for call in (
            f"nd.first_conflict({lines})",
            f"nd.first_conflict({columns})",
            f"nd.waves({columns})",
            f"shape, keys = columns(20_000); nd.first_intersection({slices})",
            f"nd.Layout.over(2**40, {columns}[0]).first_intersection({columns}[1])".replace("*columns", "columns"),
        ):
            self.assertLess(self.seconds_to_interrupt(call), 10, call)

    def seconds_to_interrupt(self, call):
        # (a shell lets what it runs in the background ignore Ctrl-C, and Python keeps to that)
        program = f"""{LINES}
import signal, time
signal.signal(signal.SIGINT, signal.default_int_handler)
print("begun", flush=True)
try:
    {call}
except KeyboardInterrupt:
    print(time.monotonic())
"""
        with subprocess.Popen([sys.executable, "-c", program], stdout=subprocess.PIPE, text=True) as child:
            self.assertEqual(child.stdout.readline(), "begun\n")
            time.sleep(2)
            sent = time.monotonic()
            child.send_signal(signal.SIGINT)
            text = child.stdout.read()
        self.assertTrue(text, "it hears nothing before its processor time is over")
        return float(text) - sent


if __name__ == "__main__":
    unittest.main()
