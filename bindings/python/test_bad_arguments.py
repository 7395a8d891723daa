"""Bad arguments of each kind, for each parameter of each call: the error is one of the package's, and says which it is.

    python3 test_bad_arguments.py
"""

import inspect
import mmap
import time
import unittest
from fractions import Fraction
from types import SimpleNamespace

import ndarray_layout as nd
from ndarray_layout import Layout, LayoutError, ShapeError, Slice
from ndarray_layout._numbers import said, written

try:
    import numpy as np
except ImportError:
    np = None

FAR = 10**5000
"""A number whose digits Python refuses to write."""

AXES = 50_000
SECONDS = 10
"""What a refusal may take: 0.6 were measured on a shared machine, which may be several times slower."""


class NoText:
    """What has no `repr`."""

    def __repr__(self):
        raise RuntimeError("no text")


class Far:
    """What says that it is a number far above 64 bits, and compares with none."""

    def __index__(self):
        return FAR


def with_numpy(values):
    """Values of NumPy, where it is there."""
    return values() if np else []


def closed():
    """A buffer that is none any more."""
    memory = mmap.mmap(-1, 8)
    memory.close()
    return memory


def released():
    view = memoryview(b"abcdef")
    view.release()
    return view


NONE_IN_LIST = (2, None)
"""No list of lengths, but one of chunks, where `None` is the whole axis."""

NO_NUMBERS = [
    *(None, 2.5, "2", True, {2}, {2: 3}, [[2]], object(), NoText(), Fraction(FAR), slice(FAR), [FAR, "a"]),
    *with_numpy(lambda: [np.True_, np.array([1, 2]), np.float64(2), np.zeros(2, "M8[s]")]),
]
NO_LISTS = [
    *(
        None,
        2.5,
        "23",
        object(),
        NoText(),
        True,
        {2, 3},
        frozenset((2, 3)),
        {2: 3, 3: 2},
        {2: 3, 3: 2}.keys(),
        slice(2),
    ),
    *((True, 3), [2, 3.5], [[2], [3]], NONE_IN_LIST, (2, NoText()), (2, "3"), (2, {3})),
    *with_numpy(lambda: [np.array([True, True]), (np.True_, 3), np.array([2.0, 3.0]), np.ones((2, 2), int)]),
]
FAR_NUMBERS = [FAR, -FAR, Far()]
FAR_LISTS = [(2, FAR), [-FAR, 3], (Far(), 3), (2, 3) * 50 + (FAR,)]
NO_ELEMS = [
    *(None, 5, 2.5, "ab", object(), NoText(), {0, 1}, {0: 1}, FAR, [0.5, 0], [0, True], [slice(0, 1), 0], [[0], 0]),
    *(
        [Slice("a"), 0],
        [0, Slice(0, 1, None)],
        [Slice(FAR), 0],
        [0, -FAR],
        [Far(), 0],
        [Slice(True), 0],
        [0, Slice(0, False)],
        [0, Slice(0, 1, True)],
        [0, Slice(0, Far())],
        [NoText(), 0],
    ),
    *([0] * 20 + ["a"], [0] * 20 + [FAR], [0, 0, 0], [0, 9], [0, Slice(0, 9)], [0, Slice(0, 1, 0)]),
    *with_numpy(lambda: [[np.True_, 0], [0, Slice(np.array([1, 2]))], np.ones((2, 2), int), np.array([0.5, 0])]),
]
NO_KEYS = [
    *("a", 2.5, True, [0], {0}, {0: 1}, object(), NoText(), FAR, -FAR, (0, FAR), Fraction(FAR), (0,) * 5, (..., ...)),
    *(slice("a"), slice(0, 1, 0), slice(0, 1, "a"), (0, NoText()), (0, [FAR])),
    *with_numpy(lambda: [np.array([0, 1]), np.True_, slice(0, 1, np.array([0, 0])), slice(np.array([0.5]))]),
]
NO_ARRAYS = [None, 5, "ab", object(), NoText(), (2, 3), SimpleNamespace(shape=(2,), strides=(8,))]
WRONG_ARRAYS = [
    *(dict(shape=shape) for shape in (*NO_LISTS, *FAR_LISTS)),
    *(dict(strides=strides) for strides in (*NO_LISTS, *FAR_LISTS)),
    *(dict(itemsize=itemsize) for itemsize in (*NO_NUMBERS, *FAR_NUMBERS, -1)),
]
NO_BUFFERS = [None, 2.5, "abcdef", object(), NoText(), [1], {2}, closed(), released()]


def array_of(shape=(2, 3), strides=(24, 8), itemsize=8):
    """What stands in for an array."""
    return SimpleNamespace(shape=shape, strides=strides, itemsize=itemsize)


BAD = {
    "list": NO_LISTS + FAR_LISTS,
    "list or None": NO_LISTS[1:] + FAR_LISTS,
    "chunks": [*(chunks for chunks in NO_LISTS[1:] if (type(chunks) is not list or chunks[0] != [2]) and chunks is not NONE_IN_LIST), *FAR_LISTS, ((2,), (2,)), ((2,), (4, -1))],
    "number": NO_NUMBERS + FAR_NUMBERS,
    "number or None": NO_NUMBERS[1:] + FAR_NUMBERS,
    "steps": NO_NUMBERS[1:] + [-1, -FAR],
    "place": NO_NUMBERS,
    "itemsize": NO_NUMBERS[1:] + FAR_NUMBERS + [0, -1],
    "flag": [
        *(None, 0, 1, 2.5, "false", "", b"", [], [True], {}, object(), NoText(), FAR),
        *with_numpy(lambda: [np.array([1, 2]), np.ones((2, 2)), np.array(True), np.int8(1)]),
    ],
    "order": [None, 5, FAR, [], {}, "K", "", b"C", NoText(), *with_numpy(lambda: [np.array(["C", "F"]), np.zeros(2)])],
    "order or None": [5, FAR, [], {}, "K", "", b"C", NoText()],
    "elems": NO_ELEMS,
    "slices": [None, 5, 2.5, object(), NoText(), *([(0, 0), elems] for elems in NO_ELEMS)],
    "key": NO_KEYS,
    "blocks": [
        *(
            5,
            2.5,
            object(),
            NoText(),
            {0},
            {0: 1},
            [None],
            [5, 5],
            [((3,),), NoText()],
            [((3,),), ()],
            [((3,),), ({3},)],
        ),
        *([((3,),), (lengths,)] for lengths in [*NO_LISTS[:6], (2,), (4, -1), (FAR,), (True, 2), ("a",), (NoText(),)]),
    ],
    "dims": [5, 2.5, object(), NoText(), {"x", "y"}, {"x": 0, "y": 1}, ("x",), ("x", "x"), ("x", [2]), "xyz", "x", (), FAR],
    "keys": [None, 5, 2.5, object(), NoText(), {0, 1}, *([0, key] for key in NO_KEYS)],
    "array": NO_ARRAYS + [array_of(**wrong) for wrong in WRONG_ARRAYS],
    "array or buffer": NO_BUFFERS + [array_of(**wrong) for wrong in WRONG_ARRAYS],
    "buffer": NO_BUFFERS + [True, *with_numpy(lambda: [np.True_, np.zeros(3, "V0")])],
    "buffer or number": NO_BUFFERS + FAR_NUMBERS[:2] + [True, -1],
    "base": NO_BUFFERS[1:],
    "dtype": ["nonsense", 5, object(), NoText(), {"a"}, [("a",)], FAR, "(", {"names": ["a"]}, "V0", "O"],
}
"""Values of which no one is what a parameter of the kind takes."""

BAD["dtype of bytes"] = ["nonsense", 5, object(), NoText(), {"a"}, FAR, "V0", "O", "i8"]
BAD["flag or None"] = BAD["flag"][1:]

LAYOUT = Layout.over(6, (2, 3))
WRITABLE = Layout.over(6, (2, 3), writable=True)
ONES = Layout.over(1, (1, 1))
REPEATED = LAYOUT.broadcast_to((2, 2, 3))
SHAPED = {"shape": ((2, 3), "list"), "strides": ((3, 1), "list"), "itemsize": (1, "itemsize")}
START = {"start": (0, "number")}
SIZES = {"elem_size": (1, "number"), "length": (6, "number"), "writable": (False, "flag")}
ORDER = {"order": ("C", "order")}
CLAMP = {"clamp": (False, "flag")}
BOTH = {"first": (0, "key"), "second": (0, "key"), "max_work": (10, "steps")}

def slice_of(key):
    return LAYOUT[key]


CALLS = {
    nd.check_layout: START | SHAPED | SIZES,
    nd.layout_start: SHAPED | SIZES,
    **{call: SHAPED for call in (nd.has_overlap, nd.is_contiguous, nd.is_layout_c, nd.is_layout_f)},
    nd.has_distinct_places: SHAPED | {"strides": ((1, 1), "list"), "max_work": (10, "steps")},
    **{call: {"shape": ((2, 3), "list")} for call in (nd.default_strides, nd.fortran_strides)},
    nd.place: START | SHAPED | {"index": ((0, 0), "list")},
    nd.next_index: {"shape": ((2, 3), "list"), "index": ((0, 0), "list")} | ORDER,
    **{call: START | SHAPED | ORDER for call in (nd.places, nd.rows, nd.joined_rows)},
    nd.slice_view: START | SHAPED | {"elems": ((0, 0), "elems")} | CLAMP,
    nd.slices_intersect: {"shape": ((2, 3), "list"), "first": ((0, 0), "elems"), "second": ((0, 0), "elems")} | CLAMP,
    nd.first_intersection: {"shape": ((2, 3), "list"), "slices": ([(0, 0)], "slices")} | CLAMP,
    nd.picked: {"shape": ((2, 3), "list"), "elems": ((0, 0), "elems")} | CLAMP,
    nd.basic_key: {"shape": ((2, 3), "list"), "key": (0, "key")},
    nd.broadcast: SHAPED | {"target": ((2, 3), "list")},
    nd.merge_axes: SHAPED | {"take": (0, "number"), "into": (1, "number")},
    nd.reshape: SHAPED | {"new_shape": ((3, 2), "list")} | ORDER,
    nd.permuted_axes: SHAPED | {"axes": ((1, 0), "list")},
    nd.windows: SHAPED | {"window": ((1, 1), "list")},
    nd.exact_chunks: SHAPED | {"chunk": ((1, 1), "list")},
    nd.split_at: START | SHAPED | {"axis": (0, "number"), "index": (0, "number")},
    nd.element_strides: {"byte_strides": ((24, 8), "list"), "itemsize": (8, "number")},
    nd.lay_over: {
        "shape": ((2, 3), "list"),
        "strides": ((24, 8), "list"),
        "itemsize": (8, "number"),
        "dtype": (None, "dtype of bytes"),
        "nbytes": (48, "number"),
        "offset": (0, "number or None"),
        "writable": (False, "flag"),
    },
    nd.share_element: {"a": (array_of(), "array")} | BOTH,
    nd.shares_memory: {"a": (LAYOUT, "array"), "b": (LAYOUT, "array"), "max_work": (10, "steps")},
    nd.reshape_without_copy: {
        "a": (array_of(), "array"),
        "new_shape": ((3, 2), "list"),
        "order": ("A", "order or None"),
    },
    **{
        call: {
            "shape": ((2, 3), "list"),
            "regions": ([0, 1], "keys"),
            "chunks": ((1, 1), "chunks"),
            "max_parts": (10, "steps"),
            "blocks": ([((3,),), ((3,),)], "blocks"),
            "dims": (("x", "y"), "dims"),
        }
        for call in (nd.first_conflict, nd.waves)
    },
    **{
        call: {"shape": ((2, 3), "list"), "region": (0, "key"), "chunks": ((1, 1), "chunks"), "dims": (("x", "y"), "dims")}
        for call in (nd.chunks_of, nd.aligned)
    },
    Layout: START | SHAPED | {"itemsize": (4, "number"), "length": (6, "number"), "writable": (False, "flag or None")},
    Layout.over: {
        "buffer": (6, "buffer or number"),
        "shape": ((2, 3), "list"),
        "strides": (None, "list or None"),
        "start": (0, "number or None"),
        "order": (None, "order or None"),
        "writable": (False, "flag or None"),
    },
    Layout.of: {"array": (b"abc", "array or buffer"), "writable": (False, "flag or None")},
    slice_of: {"key": (0, "key")},
    LAYOUT.slice: {"elems": ((0, 0), "elems")} | CLAMP,
    LAYOUT.reshape: {"shape": ((3, 2), "list")} | ORDER,
    LAYOUT.flip: {"axis": ((0, 1), "list or None")},
    LAYOUT.expand_dims: {"axis": ((0, 1), "list")},
    ONES.squeeze: {"axis": ((0, 1), "list or None")},
    LAYOUT.moveaxis: {"source": ((0, 1), "list"), "destination": ((0, 1), "list")},
    LAYOUT.index_of: {"place": (0, "place")},
    LAYOUT.joined_rows: ORDER,
    LAYOUT.to_svg: {},
    LAYOUT.broadcast_to: {"shape": ((2, 3), "list")},
    LAYOUT.ravel: ORDER,
    LAYOUT.swapaxes: {"axis1": (0, "number"), "axis2": (1, "number")},
    LAYOUT.diagonal: {"offset": (0, "place"), "axis1": (0, "number"), "axis2": (1, "number")},
    LAYOUT.windows: {"window": ((1, 1), "list")},
    LAYOUT.exact_chunks: {"chunk": ((1, 1), "list")},
    LAYOUT.split_at: {"axis": (0, "number"), "index": (0, "number")},
    LAYOUT.permuted_axes: {"axes": ((1, 0), "list")},
    LAYOUT.place: {"index": ((0, 0), "list")},
    LAYOUT.places: ORDER,
    LAYOUT.rows: ORDER,
    LAYOUT.first_intersection: {"keys": ([0], "keys")},
    LAYOUT.intersects: BOTH,
    WRITABLE.has_distinct_places: {"max_work": (10, "steps")},
    REPEATED.intersects: BOTH,
    REPEATED.has_distinct_places: {"max_work": (10, "steps")},
    LAYOUT.as_memoryview: {"buffer": (b"abcdef", "buffer")},
}
"""Each call with its parameters: a value that it takes, and the kind of those that it doesn't."""

if np:
    CALLS[LAYOUT.as_array] = {"buffer": (b"abcdef", "buffer"), "dtype": (None, "dtype")}

NAMED = (
    r"^((slice|region) \d+: )?(axis \d+: )?"
    r"(an array|array|axis|base|buffer|blocks|chunk|clamp|dims|dtype|elem_size|elems|index|window|itemsize|items of the dtype|keys|regions|"
    r"length|max_parts|max_work|nbytes|offset|writable|place|slices|start|stride|the length of a (block|chunk)|"
    r"slice indices must be integers|(?s:.+) is no (basic slice|integer|start|end|step)|"
    r"only integer scalar arrays can be converted)\b"
)
"""What the text of a `TypeError` begins with: which of many, the axis, and what it is of, or what is wrong there."""


class EachCall(unittest.TestCase):
    def assert_named(self, call, *arguments, **named):
        """The call raises an error of the package, or a `TypeError` that names an argument; its text is short."""
        with self.assertRaises((LayoutError, TypeError)) as caught:
            call(*arguments, **named)
        error = caught.exception
        if not isinstance(error, LayoutError):
            self.assertIs(type(error), TypeError)
            self.assertRegex(str(error), NAMED)
        self.assertLess(len(str(error)), 300)

    def test_table(self):
        """Some 2,500 calls, each with one bad argument."""
        count = 0
        for call, parameters in CALLS.items():
            good = {name: value for name, (value, _) in parameters.items()}
            call(**good)
            for name, (_, kind) in parameters.items():
                for value in BAD[kind]:
                    with self.subTest(call=call.__qualname__, name=name, value=written(value)):
                        self.assert_named(call, **{**good, name: value})
                    count += 1
        print(f"test_table: {count} bad arguments")

    def test_the_table_has_each_call(self):
        functions = {name for name in nd.__all__ if inspect.isroutine(getattr(nd, name))}
        methods = {
            name
            for kind in Layout.__mro__[:-1]
            for name, value in vars(kind).items()
            if name[0] != "_" and callable(getattr(value, "__func__", value)) and not isinstance(value, type)
        }
        tested = {call.__name__ for call in CALLS} | {"transpose", "as_array", "broadcast_shapes"}
        self.assertLessEqual(functions | methods, tested)

    def test_broadcast_shapes(self):
        for shape in NO_LISTS + FAR_LISTS:
            self.assert_named(nd.broadcast_shapes, (2, 3), shape)
            self.assert_named(nd.broadcast_shapes, shape)

    def test_transpose(self):
        for axes in (
            (0,),
            (0, 2),
            (0, -3),
            (0, 0),
            (0, 1.5),
            (True, 0),
            ({0, 1},),
            (FAR, 0),
            (-FAR, 0),
            ("01",),
            (0, None),
        ):
            self.assert_named(LAYOUT.transpose, *axes)
        if np:
            for axes in ((np.array([[0, 1]]),), (np.array([0, 1]), 0), (np.array([True, False]),)):
                self.assert_named(LAYOUT.transpose, *axes)
            self.assertEqual(LAYOUT.transpose(np.array([1, 0])), LAYOUT.T)

    @unittest.skipIf(np is None, "NumPy is missing")
    def test_bases(self):
        array = np.zeros((2, 3))
        for base in BAD["base"]:
            self.assert_named(Layout.of, array, base=base)
        for wrong in WRONG_ARRAYS:
            self.assert_named(Layout.of, array_of(**wrong), base=array)
        self.assert_named(Layout.of, array_of(), base=array)
        self.assert_named(Layout.of, memoryview(bytes(8)).cast("n"), base=bytes(8))

    def test_orders_are_errors_of_shape(self):
        for call, name in (
            (nd.places, "order"),
            (nd.next_index, "order"),
            (nd.reshape, "order"),
            (nd.reshape_without_copy, "order"),
        ):
            good = {name: value for name, (value, _) in CALLS[call].items()}
            for order in BAD["order or None"]:
                with self.assertRaisesRegex(ShapeError, "^BadArgument: order must be 'C'"):
                    call(**{**good, name: order})


class LongNumbers(unittest.TestCase):
    """Numbers of many digits are written short, and kept."""

    def test_said(self):
        for number, text in (
            (0, "0"),
            (-(2**31), "-2147483648"),
            (10**38, "1" + "0" * 38),
            (2**128 - 2, str(2**128 - 2)),
            (2**128 + 1, "more than 2**128"),
            (-(2**128) - 1, "less than -2**128"),
            (2**128, "2**128"),
            (-(2**9999), "-2**9999"),
            (2**9999 - 1, "2**9999 - 1"),
            (FAR, "more than 2**16609"),
            (-FAR, "less than -2**16609"),
        ):
            self.assertEqual(said(number), text)

    def test_written(self):
        for value, text in (
            ("a", "'a'"),
            ([1, (FAR, 2.5)], "[1, (more than 2**16609, 2.5)]"),
            (slice(0, 1), "slice(0, 1, None)"),
            (True, "True"),
            ((0,) * 40, "(" + "0, " * 32 + "...)"),
        ):
            self.assertEqual(written(value), text)
        for value in (NoText(), slice(FAR), "a" * 9999, b"a" * 9999, type("array", (), {})()):
            self.assertLess(len(written(value)), 90)

    def assert_far(self, text, numbers, call, *arguments, **named):
        with self.assertRaises(LayoutError) as caught:
            call(*arguments, **named)
        self.assertEqual((str(caught.exception), caught.exception.numbers), (text, numbers))

    def test_errors(self):
        text = "axis 0: index more than 2**16609 is past 64 bits"
        self.assert_far(text, {"index": FAR}, nd.place, 0, [10], [1], [FAR])
        text = "axis 0: index less than -2**16609 is negative, and isn't counted from the end here"
        self.assert_far(text, {"index": -FAR}, nd.place, 0, [10], [1], [-FAR])
        text = "axis 1: step more than 2**16609 is past 64 bits"
        self.assert_far(text, {"step": FAR}, nd.picked, (2, 3), [None, 0, Slice(0, None, FAR)])
        text = "axis 0: index more than 2**16609 is out of bounds of length 2"
        self.assert_far(text, {"index": FAR, "length": 2}, nd.basic_key, (2, 3), FAR)
        text = "offset more than 2**16609 lies outside of 9 bytes"
        self.assert_far(text, {"offset": FAR, "nbytes": 9}, nd.lay_over, 2, 4, itemsize=4, nbytes=9, offset=FAR)
        text = "itemsize more than 2**16609 is past 64 bits"
        self.assert_far(text, {"itemsize": FAR}, nd.lay_over, 2, 4, itemsize=FAR, nbytes=9)
        text = "IncompatibleShape: axis 0: no length times more than 2**1024 is the size 6"
        self.assert_far(text, {"size": 6, "others": 2**1024 + 1}, LAYOUT.reshape, (-1, FAR))

    def test_sizes(self):
        """A size is exact up to a bound, with which the time is linear in the axes."""
        for axes, text, size in (
            (16, "2**1008", 2**1008),
            (17, "more than 2**1024", 2**1024 + 1),
            (300, "more than 2**1024", 2**1024 + 1),
        ):
            text = f"the product of the lengths that are not 0 is above the limit 2**63 - 1; it is {text}"
            self.assert_far(text, {"size": size}, nd.default_strides, [2**63] * axes)
            in_bytes = {"size": size if axes > 16 else 8 * size, "itemsize": 8}
            text = f"{text.replace('2**1008', '2**1011')}, in bytes"
            self.assert_far(text, in_bytes, nd.lay_over, [2**63] * axes, [0] * axes, itemsize=8, nbytes=9)
        text = "the product of the lengths that are not 0 is above the limit 2**63 - 1; it is more than 2**1024"
        array = array_of((2**62,) * 300, (8,) * 300)
        self.assert_far(text, {"size": 2**1024 + 1}, nd.reshape_without_copy, array, (-1, 2**62, 2**62))
        in_bytes = {"size": 2**1024 + 1, "itemsize": 8}
        self.assert_far(f"{text}, in bytes", in_bytes, nd.share_element, array, 0, 0)
        self.assertEqual(nd.default_strides((2**62,)), (1,))


class ManyAxes(unittest.TestCase):
    """A refusal takes time in proportion to the axes: with the square in Python it would take minutes.

    That of a list of axes takes the square in the library: less than a second for these.
    """

    ONES = (1,) * AXES
    ZEROS = (0,) * AXES
    LARGE = (2**62,) * AXES
    RANGE = tuple(range(AXES))

    def refuse(self, call, *arguments, **named):
        began = time.process_time()
        with self.assertRaises(LayoutError) as caught:
            call(*arguments, **named)
        self.assertLess(time.process_time() - began, SECONDS, (call.__name__, str(caught.exception)[:90]))
        self.assertLess(len(str(caught.exception)), 300)

    def test_sizes(self):
        ones, large = self.ONES, self.LARGE
        self.refuse(nd.default_strides, large)
        self.refuse(nd.layout_start, large, ones, length=9)
        self.refuse(nd.layout_start, (2,) * AXES, ones, length=9)
        self.refuse(nd.windows, ones, ones, large)
        self.refuse(nd.exact_chunks, ones, ones, large)
        self.refuse(nd.broadcast, ones, ones, large)
        self.refuse(nd.lay_over, large, ones, itemsize=8, nbytes=9)
        self.refuse(nd.share_element, array_of(large, ones), 0, 0)
        self.refuse(nd.reshape, ones, ones, large)
        self.refuse(nd.reshape_without_copy, array_of(large, ones), (-1,))
        self.refuse(nd.reshape_without_copy, array_of(ones, ones), (-1,) + large)
        self.refuse(nd.reshape_without_copy, array_of(ones, ones), (-1,) + (FAR,) * 500)
        self.refuse(Layout.over, 9, large)

    def test_axes(self):
        ones, axes = self.ONES, self.RANGE
        self.refuse(nd.permuted_axes, ones, ones, (*axes[1:], 1))
        self.refuse(nd.permuted_axes, ones, ones, (*axes, 0))
        self.refuse(nd.permuted_axes, ones, ones, self.ZEROS)
        self.refuse(nd.layout_start, ones + (2, 2), axes + (1, 1), length=9, writable=True)
        self.refuse(nd.lay_over, ones + (2, 2), axes + (8, 8), itemsize=8, nbytes=99, writable=True)
        self.refuse(nd.reshape, (2, 2) * 30 + ones, (7, 3) * 30 + ones, ones + (3,))
        self.refuse(nd.place, 0, ones, ones, self.ZEROS[1:] + (1,))
        self.refuse(nd.place, 0, ones, ones, self.ZEROS[1:] + (FAR,))
        self.refuse(nd.has_distinct_places, (2,) * 60 + ones, (1,) * 60 + ones, 0)
        self.refuse(nd.share_element, array_of((2,) + ones, (0,) + ones), 0, 1, max_work=0)

    def test_slices(self):
        ones, zeros = self.ONES, self.ZEROS
        self.refuse(nd.slice_view, 0, ones, ones, zeros[1:] + (1,))
        self.refuse(nd.picked, ones, zeros[1:] + (FAR,))
        self.refuse(nd.picked, ones, zeros[1:] + (Slice(0, 1, 0),))
        self.refuse(nd.first_intersection, (2,), [[0]] * AXES + [[2]])
        self.refuse(nd.basic_key, ones, zeros[1:] + (1,))
        self.refuse(nd.basic_key, ones, (...,) * AXES)


if __name__ == "__main__":
    unittest.main()
