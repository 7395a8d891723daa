"""What a `Layout` makes of itself and says of its places, beside NumPy.

    python3 test_views.py
"""

import copy
import pickle
import random
import sys
import threading
import unittest
from itertools import product

import ndarray_layout as nd
from ndarray_layout import Layout, LayoutError, Row, ShapeError, Slice

try:
    import numpy as np
except ImportError:
    np = None

LAYOUTS = 10_000
SKIPPED = "NumPy is missing: views are not compared"


def setUpModule():
    if np is None:
        print(SKIPPED)


def any_layout(numbers, most=4):
    """A layout over 200 elements, of any strides."""
    shape = tuple(numbers.choice((0, 1, 1, 2, 3, 4, 2)) for _ in range(numbers.randint(0, most)))
    return Layout.over(200, shape, tuple(numbers.randint(-9, 9) for _ in shape))


def indices(layout):
    return product(*map(range, layout.shape))


@unittest.skipIf(np is None, SKIPPED)
class BesideNumPy(unittest.TestCase):
    """The same call of a layout and of an array that it lies over, at random, with negative axes and wrong ones."""

    def compare(self, of_layout, of_array, layout, base):
        array = np.lib.stride_tricks.as_strided(base[layout.start :], layout.shape, [8 * step for step in layout.strides])
        try:
            expected = of_array(array)
        except (ValueError, IndexError) as error:
            with self.assertRaises((LayoutError, TypeError), msg=f"{layout}: {error}"):
                of_layout(layout)
            return "refused"
        made = of_layout(layout)
        self.assertEqual(made.shape, expected.shape, layout)
        self.assertEqual(made.places(), tuple(expected.ravel().tolist()), layout)
        self.assertEqual((made.length, made.writable), (layout.length, layout.writable))
        return "the same"

    def run_calls(self, name, calls):
        numbers, base, seen = random.Random(name), np.arange(400), {"the same": 0, "refused": 0}
        for _ in range(LAYOUTS):
            layout = any_layout(numbers)
            seen[self.compare(*calls(numbers, len(layout.shape)), layout, base)] += 1
        print(f"{name} beside NumPy: {seen}")
        self.assertGreater(min(seen.values()), LAYOUTS // 50)

    def axes(self, numbers, count, extra=0):
        """An axis, some axes or `None`; seldom one that isn't there, or is there twice."""
        wide = count + extra
        choice = numbers.randint(0, 5)
        if choice == 0 and not extra:
            return None
        if choice < 3:
            return numbers.randint(-wide - (numbers.random() < 0.1), max(wide - 1, 0))
        return tuple(numbers.randint(-wide, max(wide - 1, 0)) for _ in range(numbers.randint(0, 2)))

    def test_flip(self):
        def calls(numbers, count):
            axis = self.axes(numbers, count)
            return lambda layout: layout.flip(axis), lambda array: np.flip(array, axis)

        self.run_calls("flip", calls)

    def test_expand_dims(self):
        def calls(numbers, count):
            axis = self.axes(numbers, count, 1)
            return lambda layout: layout.expand_dims(axis), lambda array: np.expand_dims(array, axis)

        self.run_calls("expand_dims", calls)

    def test_squeeze(self):
        def calls(numbers, count):
            axis = self.axes(numbers, count) if count else None  # (NumPy takes 0 for an axis where there is none)
            return lambda layout: layout.squeeze(axis), lambda array: array.squeeze(axis)

        self.run_calls("squeeze", calls)

    def test_moveaxis(self):
        def calls(numbers, count):
            source = tuple(numbers.randint(-count, max(count - 1, 0)) for _ in range(numbers.randint(0, 2)))
            destination = tuple(numbers.randint(-count, max(count - 1, 0)) for _ in range(len(source)))
            if numbers.random() < 0.05:
                destination += (0,)
            return lambda layout: layout.moveaxis(source, destination), lambda a: np.moveaxis(a, source, destination)

        self.run_calls("moveaxis", calls)

    def test_swapaxes(self):
        def calls(numbers, count):
            one, other = (numbers.randint(-count - (numbers.random() < 0.1), max(count - 1, 0)) for _ in range(2))
            return lambda layout: layout.swapaxes(one, other), lambda array: np.swapaxes(array, one, other)

        self.run_calls("swapaxes", calls)

    def test_diagonal(self):
        def calls(numbers, count):
            axes = [numbers.randint(-count, max(count - 1, 0)) for _ in range(2)]
            arguments = [numbers.randint(-4, 4), *axes] if numbers.random() < 0.8 else []
            return lambda layout: self.checked(layout.diagonal(*arguments)), lambda array: array.diagonal(*arguments)

        self.run_calls("diagonal", calls)

    def checked(self, layout):
        """The layout, which keeps the no-alias rule where it is writable, and lies within its buffer."""
        self.assertFalse(layout.writable and nd.has_overlap(layout.shape, layout.strides))
        nd.check_layout(layout.start, layout.shape, layout.strides, length=layout.length)
        return layout

    def test_broadcast_to(self):
        numbers, base, seen = random.Random("broadcast_to"), np.arange(400), {"the same": 0, "refused": 0}
        for _ in range(LAYOUTS):
            layout = any_layout(numbers, 3)
            others = [numbers.choice((0, 1, 4) if length == 1 else (length, length, length, 3)) for length in layout.shape]
            shape = [2] * numbers.choice((0, 0, 1)) + others
            strides = [8 * step for step in layout.strides]
            array = np.lib.stride_tricks.as_strided(base[layout.start :], layout.shape, strides)
            try:
                expected = np.broadcast_to(array, shape)
            except ValueError:
                self.assertRaises(ShapeError, layout.broadcast_to, shape)
                seen["refused"] += 1
                continue
            made = layout.broadcast_to(shape)
            self.assertEqual((made.shape, made.places()), (expected.shape, tuple(expected.ravel().tolist())))
            self.assertFalse(made.writable)
            seen["the same"] += 1
        self.assertGreater(min(seen.values()), LAYOUTS // 50)

    def test_ravel(self):
        """Where NumPy makes no copy: then there is a layout."""
        numbers, seen = random.Random("ravel"), {"a view": 0, "a copy": 0}
        for _ in range(LAYOUTS):
            shape = [numbers.choice((1, 2, 3, 4)) for _ in range(numbers.randint(0, 3))]
            whole = np.zeros((*shape, 2))[..., 0] if numbers.random() < 0.5 else np.zeros(shape)
            array = whole.transpose(numbers.sample(range(whole.ndim), whole.ndim))
            layout, order = Layout.of(array), numbers.choice("CFA")
            try:
                made = layout.ravel(order)
            except ShapeError:
                self.assertFalse(np.shares_memory(array.ravel(order), array), (array.shape, array.strides, order))
                seen["a copy"] += 1
                continue
            numbered = np.arange(layout.length)
            strided = np.lib.stride_tricks.as_strided(numbered, array.shape, array.strides)
            self.assertEqual(made.places(), tuple(strided.ravel(order).tolist()))
            seen["a view"] += 1
        self.assertGreater(min(seen.values()), LAYOUTS // 20)

    def test_keys(self):
        """Keys with `...`, `None`, fewer entries than axes, and too many."""

        def calls(numbers, count):
            entries = [self.entry(numbers) for _ in range(numbers.randint(0, count + (numbers.random() < 0.1)))]
            if numbers.random() < 0.4:
                entries.insert(numbers.randint(0, len(entries)), ...)
            for _ in range(numbers.choice((0, 0, 1, 2))):
                entries.insert(numbers.randint(0, len(entries)), None)
            key = entries[0] if len(entries) == 1 and numbers.random() < 0.5 else tuple(entries)
            return lambda layout: layout[key], lambda array: np.asarray(array[key])

        self.run_calls("keys", calls)

    def entry(self, numbers):
        if numbers.random() < 0.3:
            return numbers.randint(-3, 2)
        bounds = (numbers.choice((None, numbers.randint(-6, 6))) for _ in range(2))
        return slice(*bounds, numbers.choice((None, 1, 2, -1, -2, 3, 2**70, -(2**70), np.int64(2), np.int8(-1))))

    def test_reshape(self):
        """One list or its numbers, with a length left open, in both orders: where NumPy needs no copy."""
        numbers, seen = random.Random("reshape"), 0
        for _ in range(LAYOUTS):
            array = np.arange(24).reshape(numbers.choice(((24,), (2, 12), (4, 6), (2, 3, 4), (1, 24, 1))))
            array = array.transpose(numbers.sample(range(array.ndim), array.ndim))
            layout = Layout.of(array, base=array.base)
            shape = list(numbers.choice(((24,), (2, 12), (3, 8), (2, 2, 6), (4, 3, 2), (6, 1, 4), (5, 5))))
            if numbers.random() < 0.4:
                shape[numbers.randrange(len(shape))] = -1
            order = numbers.choice("CFcf")
            try:
                expected = array.reshape(*shape, order=order)
            except ValueError:
                self.assertRaises(ShapeError, layout.reshape, *shape, order=order)
                continue
            if not np.shares_memory(expected, array):
                self.assertRaises(ShapeError, layout.reshape, *shape, order=order)
                continue
            seen += 1
            for made in (layout.reshape(*shape, order=order), layout.reshape(tuple(shape), order=order)):
                self.assertEqual((made.shape, made.places()), (expected.shape, tuple(expected.ravel().tolist())))
        self.assertGreater(seen, LAYOUTS // 4)

    def test_broadcast_shapes_of_many(self):
        numbers, seen = random.Random("co_broadcast"), {"the same": 0, "refused": 0}
        for _ in range(LAYOUTS):
            common = [numbers.choice((1, 2, 3, 0)) for _ in range(numbers.randint(0, 3))]
            shapes = [self.part_of(numbers, common) for _ in range(numbers.randint(2, 5))]
            try:
                expected = np.broadcast_shapes(*shapes)
            except ValueError:
                self.assertRaises(ShapeError, nd.broadcast_shapes, *shapes)
                seen["refused"] += 1
            else:
                self.assertEqual(nd.broadcast_shapes(*shapes), expected)
                seen["the same"] += 1
        self.assertGreater(min(seen.values()), LAYOUTS // 50)

    def part_of(self, numbers, common):
        lens = [length if numbers.random() < 0.8 else numbers.choice((1, 1, 1, 2)) for length in common]
        return tuple(lens[numbers.randint(0, len(lens)) :])


class Places(unittest.TestCase):
    def test_index_of(self):
        """The other way round of `place`, for each place of random layouts; refused where two may have one."""
        numbers, seen = random.Random("index_of"), 0
        for _ in range(LAYOUTS):
            layout = any_layout(numbers)
            if layout.has_overlap:
                self.assertRaises(ShapeError, layout.index_of, layout.start)
                continue
            index_of = {layout.place(index): index for index in indices(layout)}
            for place in range(-3, 203):
                self.assertEqual(layout.index_of(place), index_of.get(place), (layout, place))
            seen += 1
        self.assertGreater(seen, LAYOUTS // 5)

    def test_joined_rows(self):
        """The places of `rows` in their order; no two rows that follow each other make up one."""
        numbers, fewer = random.Random("joined rows"), 0
        for _ in range(LAYOUTS):
            layout, order = any_layout(numbers), numbers.choice("CFA")
            rows = [*layout.joined_rows(order)]
            places = tuple(place for row in rows for place in row.places())
            self.assertEqual(places, layout.places(order), (layout, rows))
            for one, other in zip(rows, rows[1:]):
                self.assertEqual(one.stride, other.stride)
                self.assertNotEqual(one.start + one.stride * one.length, other.start, (layout, rows))
            self.assertLessEqual(len(rows), len([*layout.rows(order)]))
            fewer += len(rows) < len([*layout.rows(order)])
        self.assertGreater(fewer, LAYOUTS // 10)

    def test_one_read_for_many(self):
        layout = Layout.over(10**6, (1000, 40, 25))
        self.assertEqual([*layout[3:7].joined_rows()], [Row(3000, 1, 4000)])
        self.assertEqual(len([*layout[:, 1:].joined_rows()]), 1000)
        self.assertEqual([*layout[5, :, ::5].joined_rows()], [Row(5000, 5, 200)])
        self.assertEqual([*layout.T.joined_rows("F")], [Row(0, 1, 10**6)])


class Fields(unittest.TestCase):
    def test_items(self):
        """The size and the format of the items go along with what is made."""
        whole = Layout.over(memoryview(bytes(48)).cast("d"), (2, 3))
        for layout in (whole, whole.T, whole[0], whole.reshape(3, 2), whole.broadcast_to((4, 2, 3)), whole.windows((1, 1))):
            for same in (layout, pickle.loads(pickle.dumps(layout)), copy.copy(layout)):
                self.assertEqual((same.itemsize, same.format), (8, "d"))
                self.assertEqual(same.nbytes, same.size * 8)
        self.assertEqual((Layout.over(6, 6).itemsize, Layout.over(6, 6).format, Layout.over(6, 6).nbytes), (1, None, 6))
        longs = Layout.over(memoryview(bytes(48)).cast("q"), (2, 3))
        self.assertEqual((whole, hash(whole)), (longs, hash(longs)))
        self.assertNotEqual(whole, Layout.over(6, (2, 3)))
        self.assertEqual(len({whole, longs, Layout.over(6, (2, 3)), Layout.over(memoryview(bytes(24)).cast("f"), (2, 3))}), 3)
        self.assertRaises(OverflowError, Layout, 0, 2, 2**62, length=2**63, itemsize=4)

    def test_frozen(self):
        layout = Layout.over(6, 6)[1:]
        for name in ("start", "itemsize", "format", "other"):
            self.assertRaises((AttributeError, TypeError), setattr, layout, name, 5)
        self.assertRaises((AttributeError, TypeError), delattr, layout, "start")
        self.assertFalse(hasattr(layout, "__dict__"))
        self.assertIs(type(layout), Layout)

    def test_unpickled_layouts_are_accepted(self):
        call, numbers = Layout.over(6, 6).__reduce__()
        self.assertRaises(IndexError, call, Layout, 1, *numbers[2:])
        self.assertEqual(call(*numbers), Layout.over(6, 6))


class Calls(unittest.TestCase):
    def test_threads(self):
        """Many threads at once: no one sees another's numbers."""
        wrong = []

        def slices(seed):
            numbers = random.Random(seed)
            for _ in range(3_000):
                length, start, step = numbers.randint(10, 10**9), numbers.randint(0, 9), numbers.randint(1, 9)
                found = Layout.over(length, length)[start::step]
                if (found.start, found.shape) != (start, (len(range(start, length, step)),)):
                    wrong.append((length, start, step, found))

        self.addCleanup(sys.setswitchinterval, sys.getswitchinterval())
        sys.setswitchinterval(1e-6)
        threads = [threading.Thread(target=slices, args=(seed,)) for seed in range(8)]
        for thread in threads:
            thread.start()
        for thread in threads:
            thread.join()
        self.assertEqual(wrong, [])

    def test_many_axes(self):
        """Lists may be longer than those that the module has room for."""
        layout = Layout.over(2, (1,) * 70 + (2,))
        self.assertEqual(layout.T.shape, (2,) + (1,) * 70)
        self.assertEqual(layout[..., ::-1].start, 1)
        self.assertEqual(layout.squeeze(), Layout.over(2, 2))
        self.assertEqual(layout.reshape(2, *(1,) * 70).strides[0], 1)

    def test_bounds_that_are_none(self):
        """What is no number is a `TypeError` also where it is false, and numbers without 64 bits are moved."""
        layout = Layout.over(6, (2, 3))
        for wrong in ("", 0.0, (), b"", 1.5, "1"):
            for bounds in ((wrong, None), (None, wrong), (None, None, wrong), (wrong, 2, 1)):
                self.assertRaises(TypeError, layout.__getitem__, slice(*bounds))
                self.assertRaises(TypeError, layout.__getitem__, (0, slice(*bounds)))
        self.assertEqual(layout[-(2**70) : 2**70 : 2**70, 2**64 :].shape, (1, 0))
        self.assertEqual(layout[False:True:True].shape, (1, 3))
        for key in (-3, 2, 2**63, -(2**63), -(2**70), (0, 0, 0), (0, 0, slice(None)), (slice(None), 3), (0, -4)):
            self.assertRaises(IndexError, layout.__getitem__, key)

    def test_habits(self):
        """What has an index is one, an empty layout has no gaps, and no window is longer than its axis, as in NumPy."""
        index, layout = type("Index", (), {"__index__": lambda self: 1})(), Layout.over(6, (2, 3))
        self.assertEqual((layout[index], layout[index, index:]), (layout[1], layout[1, 1:]))
        self.assertTrue(layout[:0].is_contiguous and layout.is_contiguous and not layout[:, 1:].is_contiguous)
        with self.assertRaisesRegex(ValueError, "axis 1: a window of length 4 is longer than the axis, of length 3"):
            layout.windows((2, 4))
        self.assertEqual(layout.windows((2, 3)).shape, (1, 1, 2, 3))

    def test_refusals(self):
        """Errors are those of the functions, in kind, text and numbers, and the next call is as ever."""
        layout = Layout.over(6, (2, 3))
        for call, function in (
            (lambda: layout.permuted_axes((0, 0)), lambda: nd.permuted_axes((2, 3), (3, 1), (0, 0))),
            (lambda: layout.permuted_axes((0, 2**70)), lambda: nd.permuted_axes((2, 3), (3, 1), (0, 2**70))),
            (lambda: layout.T.reshape(6), lambda: nd.reshape((3, 2), (1, 3), 6)),
            (lambda: layout.reshape(2**70), lambda: nd.reshape((2, 3), (3, 1), 2**70)),
            (lambda: Layout.over(5, (2, 3)), lambda: nd.layout_start((2, 3), (3, 1), length=5)),
            (lambda: Layout.over(5, (2**40, 2**40)), lambda: nd.default_strides((2**40, 2**40))),
            (lambda: Layout(0, 2, 2**70, length=9), lambda: nd.check_layout(0, 2, 2**70, length=9)),
            (lambda: layout[2], lambda: nd.slice_view(0, (2, 3), (3, 1), (2, Slice()))),
        ):
            with self.assertRaises(LayoutError) as found:
                call()
            with self.assertRaises(LayoutError) as expected:
                function()
            self.assertIs(type(found.exception), type(expected.exception))
            self.assertEqual(str(found.exception), str(expected.exception))
            self.assertEqual(found.exception.numbers, expected.exception.numbers)
            self.assertEqual(layout[::-1, 1:].places(), (4, 5, 1, 2))


class Frame(Layout):
    """A class that a user makes of `Layout`."""

    def corner(self):
        return self[0, 0]


class Classes(unittest.TestCase):
    def test_each_call_keeps_the_class(self):
        frame = Frame.over(24, (4, 6))
        made = (
            *(frame, frame[1:, ::2], frame[None, 0], frame.T, frame.reshape(24), frame.ravel()),
            *(frame.flip(), frame.windows((2, 2)), frame.exact_chunks((2, 3)), frame.broadcast_to((2, 4, 6))),
            *(frame.swapaxes(0, 1), frame.diagonal(), frame.split_at(0, 1)[1], frame.expand_dims(0).squeeze(0)),
            *(frame.slice([0, Slice()]), frame.moveaxis(0, 1), frame.permuted_axes((1, 0)), frame.corner()),
            *(Frame(0, (4,), (1,), length=4), Frame.of(memoryview(b"abc")), Frame.over(9, (3, 3), (3, 1), start=0)),
            *(copy.copy(frame), copy.deepcopy(frame), pickle.loads(pickle.dumps(frame))),
        )
        for one in made:
            self.assertIs(type(one), Frame)
        self.assertEqual(made[-1], frame)
        self.assertEqual(frame[1].places(), Layout.over(24, (4, 6))[1].places())
        self.assertIs(type(Layout.over(6, (2, 3))[0].T), Layout)


if __name__ == "__main__":
    unittest.main()
