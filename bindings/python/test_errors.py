"""The kind and the axis of errors, beside a second reading of the rules in docs/RULES.md: random calls.

    python3 test_errors.py

Here each rule is written as the page says it, over lists of places where it can be, and not as `_reasons` finds it.
"""

import math
import random
import unittest
from collections import Counter
from itertools import product

import ndarray_layout as nd
from ndarray_layout import LayoutError, Slice

CALLS = 20_000
MAX = 2**63 - 1
HUGE = (2**31, 2**40, 2**62, MAX)
OK = None


class Rules:
    """The errors of each call, in their order: a kind with an axis or None, or OK. `sized` tests a size, and so on."""

    @staticmethod
    def sized(shape):
        return ("Overflow", None) if math.prod([length for length in shape if length > 0]) > MAX else OK

    @staticmethod
    def layout(shape, strides, elem_size=1):
        if len(shape) != len(strides):
            return ("IncompatibleLayout", None)
        span = sum((length - 1) * abs(stride) for length, stride in zip(shape, strides) if length > 0)
        return Rules.sized(shape) or (("Overflow", None) if max(span, span * elem_size) > MAX else OK)

    @staticmethod
    def corners(start, shape, strides):
        """The places of the corners: the lowest and the highest place are among them. An empty axis has one corner."""
        ends = [{0, max(length - 1, 0) * stride} for length, stride in zip(shape, strides)]
        return [start + sum(corner) for corner in product(*ends)]

    @staticmethod
    def accepted(start, length, shape, strides, elem_size, writable):
        found = Rules.layout(shape, strides, elem_size)
        if found:
            return found
        if start is None:
            start = -min(Rules.corners(0, shape, strides))
        corners, is_empty = Rules.corners(start, shape, strides), 0 in shape
        if min(corners) < 0 or max(corners) > MAX or max(corners) >= length + is_empty:
            return ("OutOfBounds", None)
        return Rules.alone(shape, strides) if writable else OK

    @staticmethod
    def alone(shape, strides):
        if 0 in shape:
            return OK
        for axis in range(len(shape)):
            smaller = [k for k in range(len(shape)) if k != axis and abs(strides[k]) <= abs(strides[axis])]
            if shape[axis] > 1 and not sum((shape[k] - 1) * abs(strides[k]) for k in smaller) < abs(strides[axis]):
                return ("Unsupported", axis)
        return OK

    @staticmethod
    def index(shape, index):
        if len(index) != len(shape):
            return ("OutOfBounds", None)
        return next((("OutOfBounds", k) for k, pair in enumerate(zip(index, shape)) if pair[0] >= pair[1]), OK)

    @staticmethod
    def argument(shape, elems, clamp):
        elems = [elem for elem in elems if elem is not None]
        if len(elems) != len(shape):
            return ("IncompatibleShape", None)
        for axis, (length, elem) in enumerate(zip(shape, elems)):
            if isinstance(elem, int):
                if elem not in range(-length, length):
                    return ("OutOfBounds", axis)
                continue
            bounds = [elem.start, length if elem.end is None else elem.end]
            if not clamp and any(bound not in range(-length, length + 1) for bound in bounds):
                return ("OutOfBounds", axis)
            if elem.step == 0:
                return ("Unsupported", axis)
        return OK

    @staticmethod
    def common(first, second):
        axes = max(len(first), len(second))
        for axis in range(axes):
            lens = {shape[axis - axes] for shape in (first, second) if len(shape) >= axes - axis} - {1}
            if len(lens) > 1:
                return ("IncompatibleShape", axis)
        return OK

    @staticmethod
    def target(shape, target):
        if len(shape) > len(target):
            return ("IncompatibleShape", None)
        for back in range(len(shape), 0, -1):
            if shape[-back] != target[-back] and shape[-back] != 1:
                return ("IncompatibleShape", len(target) - back)
        return Rules.sized(target)

    @staticmethod
    def merged(shape, take, into):
        for axis in (take, into):
            if axis not in range(len(shape)):
                return ("OutOfBounds", axis)
        return ("Unsupported", take) if take == into else OK

    @staticmethod
    def blocks(shape, block, counts):
        """`counts` has how many blocks an axis has, of its length and that of the block."""
        if len(block) != len(shape):
            return ("IncompatibleShape", None)
        empty = next((axis for axis, length in enumerate(block) if length == 0), None)
        if empty is not None:
            return ("Unsupported", empty)
        return Rules.sized([*map(counts, shape, block), *block])

    @staticmethod
    def split(shape, axis, index):
        is_part = axis < len(shape) and index <= shape[axis]
        return OK if is_part else ("OutOfBounds", axis)

    @staticmethod
    def permuted(shape, axes):
        missing = [axis for axis in range(len(shape)) if axis not in axes]
        if missing:
            return ("IncompatibleShape", missing[0])
        return OK if len(axes) == len(shape) else ("IncompatibleShape", None)

    @staticmethod
    def reshaped(shape, strides, order, new_shape):
        if Rules.sized(new_shape):
            return Rules.sized(new_shape)
        if (0 in shape) != (0 in new_shape):
            return ("IncompatibleShape", None)
        if 0 in shape:
            return OK
        read = [k for k in range(len(shape)) if shape[k] > 1][:: 1 if order == "C" else -1]
        new_read = list(new_shape)[:: 1 if order == "C" else -1]
        for at in range(1, len(read)):
            slow, fast = read[at - 1], read[at]
            before = math.prod(shape[k] for k in read[:at])
            boundaries = [math.prod(new_read[:count]) for count in range(1, len(new_read) + 1)]
            is_loose = strides[slow] != shape[fast] * strides[fast]
            if is_loose and before < math.prod(new_shape) and before not in boundaries:
                return ("IncompatibleLayout", fast)
        return OK if math.prod(shape) == math.prod(new_shape) else ("IncompatibleShape", None)


class BesideRules(unittest.TestCase):
    """The kinds, and the axes, of 20,000 random calls each."""

    def setUp(self):
        self.numbers = random.Random(self.id().rpartition(".")[2])
        self.seen = Counter()

    def tearDown(self):
        print(f"{self._testMethodName}: " + ", ".join(f"{name} {count}" for name, count in sorted(self.seen.items())))
        self.assertGreater(len(self.seen), 1)

    def compare(self, expected, call, *arguments, **named):
        try:
            call(*arguments, **named)
            found = OK
        except LayoutError as error:
            found = (error.kind, error.axis)
            self.assertNotEqual(error.text, "")
            if error.axis is not None:
                self.assertRegex(error.text, rf"^(slice \d+: )?axis {error.axis}: ")
            self.assert_class(error)
        self.assertEqual(found, expected, (call.__name__, arguments, named))
        where = "" if not expected or expected[1] is None else ", of an axis"
        self.seen["Ok" if expected is OK else expected[0] + where] += 1

    def assert_class(self, error):
        classes = {"OutOfBounds": IndexError, "Overflow": OverflowError}
        self.assertIsInstance(error, classes.get(error.kind, nd.ShapeError))

    def length(self):
        numbers = self.numbers
        return numbers.choice(HUGE) if numbers.random() < 0.03 else numbers.choice((0, 1, 1, 2, 2, 3, 4, 6))

    def shape(self):
        return [self.length() for _ in range(self.numbers.randint(0, 4))]

    def strides(self, shape):
        numbers = self.numbers
        if numbers.random() < 0.03:
            return [1] * numbers.randint(0, 5)
        if numbers.random() < 0.05:
            return [numbers.choice((1, -1)) * numbers.choice(HUGE) for _ in shape]
        steps, step = [], 1
        for length in reversed(shape):
            steps.append(step * numbers.choice((1, 1, 1, -1, 0, 2)))
            step = min(step * max(length, 1), MAX)
        steps.reverse()
        if numbers.random() < 0.3:
            numbers.shuffle(steps)
        return [max(min(stride, MAX), -MAX) for stride in steps]

    def elems(self, shape):
        numbers = self.numbers

        def bound(length):
            return (
                numbers.randint(-length - 1, length + 1)
                if numbers.random() < 0.4
                else numbers.randint(-length, length)
            )

        elems = []
        for length in shape:
            if numbers.random() < 0.3:
                elems.append(
                    numbers.randint(-length - 1, length) if length < 9 else numbers.choice((0, length, -length))
                )
            else:
                end = None if numbers.random() < 0.3 else bound(length)
                elems.append(Slice(bound(length), end, numbers.choice((1, 2, -1, -2, 1, 2, -3, 0))))
        if numbers.random() < 0.2:
            elems.insert(numbers.randint(0, len(elems)), None)
        if numbers.random() < 0.05:
            elems.append(0)
        return elems

    def test_layouts(self):
        for _ in range(CALLS):
            shape, numbers = self.shape(), self.numbers
            strides, writable, elem_size = self.strides(shape), numbers.random() < 0.5, numbers.choice((0, 1, 8, 2**40))
            length = numbers.choice((numbers.randint(0, 150), 2**64 - 1, MAX))
            sizes = {"elem_size": elem_size, "length": length, "writable": writable}
            expected = Rules.accepted(None, length, shape, strides, elem_size, writable)
            self.compare(expected, nd.layout_start, shape, strides, **sizes)
            start = numbers.choice((0, numbers.randint(0, 30), numbers.randint(0, 150), MAX))
            expected = Rules.accepted(start, length, shape, strides, elem_size, writable)
            self.compare(expected, nd.check_layout, start, shape, strides, **sizes)

    def test_shapes_alone(self):
        for _ in range(CALLS):
            shape = self.shape()
            strides = self.strides(shape)
            for call in (nd.default_strides, nd.fortran_strides):
                self.compare(Rules.sized(shape), call, shape)
            for call in (nd.has_overlap, nd.is_contiguous, nd.is_layout_c, nd.is_layout_f):
                self.compare(Rules.layout(shape, strides), call, shape, strides)

    def test_indices(self):
        for _ in range(CALLS):
            shape = self.shape()
            strides, start = self.strides(shape), self.numbers.choice((0, 50, 1_000))
            index = [self.numbers.randint(0, max(length, 1)) if self.numbers.random() < 0.3 else 0 for length in shape]
            index += [0] * (self.numbers.random() < 0.03)
            accepted = Rules.accepted(start, MAX + 1, shape, strides, 1, False)
            self.compare(accepted or Rules.index(shape, index), nd.place, start, shape, strides, index)
            if accepted or max(shape, default=0) < 9:
                self.compare(accepted, nd.rows, start, shape, strides, self.numbers.choice("CF"))
            self.compare(Rules.index(shape, index), nd.next_index, shape, index)

    def test_slices(self):
        for _ in range(CALLS):
            shape = self.shape()
            strides, start, clamp = (
                self.strides(shape),
                self.numbers.choice((0, 50, 1_000)),
                self.numbers.random() < 0.3,
            )
            first, second = self.elems(shape), self.elems(shape)
            of_first, of_second = (Rules.argument(shape, elems, clamp) for elems in (first, second))
            accepted = Rules.accepted(start, MAX + 1, shape, strides, 1, False)
            self.compare(accepted or of_first, nd.slice_view, start, shape, strides, first, clamp)
            self.compare(Rules.sized(shape) or of_first, nd.picked, shape, first, clamp)
            both = Rules.sized(shape) or of_first or of_second
            self.compare(both, nd.slices_intersect, shape, first, second, clamp)
            self.compare(both, nd.first_intersection, shape, [first, second], clamp)

    def test_broadcasts(self):
        for _ in range(CALLS):
            shape = self.shape()
            strides = self.strides(shape)
            target = [length if length != 1 else self.length() for length in shape]
            target = self.shape()[:2] + target if self.numbers.random() < 0.8 else self.shape()
            self.compare(Rules.common(shape, target), nd.broadcast_shapes, shape, target)
            expected = Rules.layout(shape, strides) or Rules.target(shape, target)
            self.compare(expected, nd.broadcast, shape, strides, target)

    def test_blocks_and_parts(self):
        for _ in range(CALLS):
            shape, numbers = self.shape(), self.numbers
            strides, block = self.strides(shape), [self.length() for _ in shape] + [1] * (numbers.random() < 0.05)
            layout = Rules.layout(shape, strides)
            by_ones, apart = lambda length, one: max(length - one + 1, 0), int.__floordiv__
            self.compare(layout or Rules.blocks(shape, block, by_ones), nd.windows, shape, strides, block)
            self.compare(layout or Rules.blocks(shape, block, apart), nd.exact_chunks, shape, strides, block)
            start, axis, index = (
                numbers.choice((0, 50, 1_000)),
                numbers.randint(0, 4),
                numbers.choice((0, 1, 2, 3, MAX)),
            )
            expected = Rules.accepted(start, MAX + 1, shape, strides, 1, False) or Rules.split(shape, axis, index)
            self.compare(expected, nd.split_at, start, shape, strides, axis, index)

    def test_merges_and_permutations(self):
        for _ in range(CALLS):
            shape = self.shape()
            strides = self.strides(shape)
            take, into = self.numbers.randint(0, 4), self.numbers.randint(0, 4)
            expected = Rules.layout(shape, strides) or Rules.merged(shape, take, into)
            self.compare(expected, nd.merge_axes, shape, strides, take, into)
            axes = self.numbers.sample(range(len(shape)), len(shape))
            if axes and self.numbers.random() < 0.3:
                axes[0] = self.numbers.randint(0, 4)
            axes += [0] * (self.numbers.random() < 0.1)
            expected = Rules.layout(shape, strides) or Rules.permuted(shape, axes)
            self.compare(expected, nd.permuted_axes, shape, strides, axes)

    def test_reshapes(self):
        for _ in range(CALLS):
            shape, numbers = self.shape(), self.numbers
            strides, order = self.strides(shape), numbers.choice("CF")
            new_shape = [part for length in shape for part in ({4: (2, 2), 6: (2, 3)}.get(length, (length,)))]
            while len(new_shape) > 1 and numbers.random() < 0.5 and max(new_shape) < 99:
                at = numbers.randrange(len(new_shape) - 1)
                new_shape[at : at + 2] = [new_shape[at] * new_shape[at + 1]]
            if numbers.random() < 0.1:
                new_shape = self.shape()
            expected = Rules.layout(shape, strides) or Rules.reshaped(shape, strides, order, new_shape)
            self.compare(expected, nd.reshape, shape, strides, new_shape, order)


if __name__ == "__main__":
    unittest.main()
