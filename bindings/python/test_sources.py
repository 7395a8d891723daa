"""What is read of arrays: `__array_interface__`, DLPack and buffers of any format; and two arrays that share an element.

    python3 test_sources.py
"""

import array
import ctypes
import gc
import random
import tempfile
import time
import unittest
import weakref
from types import SimpleNamespace
from collections import Counter

import ndarray_layout as nd
from ndarray_layout import Layout, LayoutError, ShapeError

try:
    import numpy as np
except ImportError:
    np = None

PAIRS = 20_000
SKIPPED = "NumPy is missing: what it says of arrays is not compared"


def setUpModule():
    if np is None:
        print(SKIPPED)


class Interface:
    """What has `__array_interface__` and no more."""

    def __init__(self, interface):
        self.__array_interface__ = interface


class Kind(ctypes.Structure):
    _fields_ = [("code", ctypes.c_uint8), ("bits", ctypes.c_uint8), ("lanes", ctypes.c_uint16)]


class Declared(ctypes.Structure):
    """`DLTensor`, as DLPack declares it."""

    _fields_ = [
        *(("data", ctypes.c_void_p), ("device", ctypes.c_int32 * 2), ("ndim", ctypes.c_int32), ("kind", Kind)),
        *(("shape", ctypes.POINTER(ctypes.c_int64)), ("strides", ctypes.POINTER(ctypes.c_int64)), ("byte_offset", ctypes.c_uint64)),
    ]


class Managed(ctypes.Structure):
    """`DLManagedTensor`."""

    _fields_ = [
        ("tensor", Declared),
        ("context", ctypes.c_void_p),
        ("deleter", ctypes.CFUNCTYPE(None, ctypes.c_void_p)),
    ]


class Tensor:
    """A stand-in for a tensor of another package, with the capsules that it gave."""

    def __init__(self, data, shape, strides, kind=(2, 32, 1), device=1, offset=0, name=b"dltensor"):
        self.lists = [(ctypes.c_int64 * len(numbers))(*numbers) for numbers in (shape, strides or ())]
        self.managed = Managed()
        tensor = self.managed.tensor
        tensor.data, tensor.device[0], tensor.ndim, tensor.byte_offset = data, device, len(shape), offset
        tensor.kind.code, tensor.kind.bits, tensor.kind.lanes = kind
        pointer = ctypes.POINTER(ctypes.c_int64)
        tensor.shape = ctypes.cast(self.lists[0], pointer)
        tensor.strides = ctypes.cast(self.lists[1], pointer) if strides is not None else pointer()
        self.name = ctypes.create_string_buffer(name)

    def __dlpack__(self, **how):
        new = ctypes.pythonapi.PyCapsule_New
        new.restype, new.argtypes = ctypes.py_object, [ctypes.c_void_p, ctypes.c_char_p, ctypes.c_void_p]
        return new(ctypes.addressof(self.managed), ctypes.cast(self.name, ctypes.c_char_p), None)


@unittest.skipIf(np is None, SKIPPED)
class ArraysOfSources(unittest.TestCase):
    def test_as_array(self):
        """An array over what has an interface or is a tensor; its owner lives as long. That of a device is refused by its name."""
        items = np.arange(24, dtype="f4")
        layout, owner = Layout.over(items, (4, 6)), Interface(items.__array_interface__)
        array, left = layout.as_array(owner), weakref.ref(owner)
        del owner
        self.assertIsNotNone(left())
        self.assertEqual(array.tolist(), items.reshape(4, 6).tolist())
        tensor = Tensor(items.ctypes.data, (24,), (1,))
        for device, name in ((2, "CUDA"), (10, "ROCm")):
            tensor.__dlpack_device__ = lambda: (device, 0)
            with self.assertRaisesRegex(ShapeError, rf"on a device {device} \({name}\) has no address here"):
                layout.as_array(tensor)
        with self.assertRaisesRegex(TypeError, "it is on a CUDA device"):
            layout.as_array(SimpleNamespace(__cuda_array_interface__={}))


class DLPack(unittest.TestCase):
    def test_stand_in(self):
        tensor = Tensor(64, (2, 3), (3, 1))
        for of in (tensor, tensor.__dlpack__()):
            layout = Layout.of(of, writable=True)
            self.assertEqual(layout, Layout(0, (2, 3), (3, 1), length=6, writable=True, itemsize=4))
            self.assertEqual((layout.itemsize, layout.format, layout.nbytes), (4, "f", 24))
        self.assertEqual(Layout.of(Tensor(64, (2, 3), None)).strides, (3, 1))
        self.assertEqual(Layout.of(Tensor(64, (), None)).shape, ())
        self.assertEqual(Layout.of(Tensor(64, (4,), (-2,))).start, 6)
        self.assertEqual(Layout.of(Tensor(None, (0, 3), None, (0, 64, 1), device=2)).shape, (0, 3))

    def test_kinds(self):
        for kind, itemsize, form in (
            ((0, 8, 1), 1, "b"),
            ((1, 64, 1), 8, "Q"),
            ((2, 16, 1), 2, "e"),
            ((4, 16, 1), 2, None),
            ((5, 128, 1), 16, "Zd"),
            ((6, 8, 1), 1, "?"),
            ((2, 32, 4), 16, None),
        ):
            layout = Layout.of(Tensor(64, (5,), (2,), kind))
            self.assertEqual((layout.itemsize, layout.format, layout.strides), (itemsize, form, (2,)))
        self.assertRaises(ShapeError, Layout.of, Tensor(64, (5,), (1,), (2, 4, 1)))
        self.assertRaises(ShapeError, Layout.of, Tensor(64, (5,), (1,), (2, 0, 1)))

    def test_none(self):
        """A capsule that was taken, or of another kind, is none."""
        for name in (b"used_dltensor", b"dltensor_versioned", b"other"):
            self.assertRaises(TypeError, Layout.of, Tensor(64, (5,), (1,), name=name))
        self.assertRaises(LayoutError, Layout.of, Tensor(64, (-5,), (1,)))

    def test_memory(self):
        """Two tensors share an element where their bytes do, the offset counted; other devices tell no address."""
        room = (ctypes.c_float * 12)()
        at = ctypes.addressof(room)
        evens, odds = Tensor(at, (6,), (2,)), Tensor(at, (6,), (2,), offset=4)
        self.assertFalse(nd.share_element(evens, odds))
        self.assertTrue(nd.share_element(evens, Tensor(at, (3,), (3,), offset=12)))
        self.assertTrue(nd.share_element(odds, Tensor(at + 4, (), ())))
        self.assertRaises((LayoutError, TypeError), nd.share_element, evens, Tensor(at, (6,), (2,), device=2))
        self.assertFalse(nd.share_element(evens, Tensor(None, (0,), (1,), device=2)))

    @unittest.skipIf(np is None, SKIPPED)
    def test_numpys_capsules(self):
        """The layout of NumPy's own capsule is that of the array, which the capsule lets go."""

        class Only:
            def __init__(self, items):
                self.items = items

            def __dlpack__(self):
                return self.items.__dlpack__()

        for dtype in ("i1", "u2", "i4", "u8", "f2", "f4", "f8", "c8", "c16"):
            items = np.zeros((4, 5, 6), dtype)[::2, ::-1, 1:]
            layout = Layout.of(Only(items), base=items.base)
            self.assertEqual(layout, Layout.of(items, base=items.base))
            self.assertEqual((layout.itemsize, layout.format), (items.itemsize, memoryview(items).format.replace("l", "q").replace("L", "Q")))
        kept = weakref.ref(items)
        del items
        gc.collect()
        self.assertIsNone(kept())


@unittest.skipIf(np is None, SKIPPED)
class Interfaces(unittest.TestCase):
    def test_beside_numpy(self):
        """What is read of the interface of an array is what is read of the array."""
        numbers = random.Random("interfaces")
        for dtype in ("?", "i1", "u2", ">i4", "<i8", "f2", ">f8", "c16", "S3", "U2", "M8[s]", "V5"):
            for _ in range(50):
                items = np.zeros([numbers.randint(0, 4) for _ in range(numbers.randint(0, 3))], dtype)
                items = items.transpose(numbers.sample(range(items.ndim), items.ndim))
                items = items[(..., *(slice(None, None, numbers.choice((1, 2, -1))) for _ in items.shape))]
                only = Interface(items.__array_interface__)
                found, expected = Layout.of(only), Layout.of(items)  # (strides of axes of length 1 may differ)
                self.assertEqual((found.shape, found.places()), (expected.shape, expected.places()))
                self.assertEqual(Layout.of(only).itemsize, items.itemsize)
                if items.size and items.base is not None:
                    self.assertTrue(nd.share_element(only, items))

    def test_formats(self):
        for dtype, form in (("?", "?"), ("<i4", "i"), (">i4", ">i"), ("f8", "d"), ("S3", "3s"), ("M8[s]", None)):
            self.assertEqual(Layout.of(Interface(np.zeros(2, dtype).__array_interface__)).format, form)
        for dtype in ("?", "i4", ">i4", "f8", "S3", "c8", [("a", "i4"), ("b", "S3")]):
            items = np.zeros(2, dtype)
            self.assertEqual(Layout.of(items).format, memoryview(items).format)
            self.assertEqual(Layout.over(items, 2).format, memoryview(items).format)
        self.assertIsNone(Layout.of(np.zeros(2, "M8[s]")).format)

    def test_none(self):
        good = np.zeros((2, 3)).__array_interface__
        for wrong in ({}, {"typestr": "<f"}, {**good, "typestr": "f8"}, {**good, "typestr": ""}, {**good, "shape": 2.5}):
            self.assertRaises(TypeError, Layout.of, Interface(wrong))
        self.assertRaises(LayoutError, Layout.of, Interface({**good, "shape": (2, -3)}))
        self.assertRaises(LayoutError, Layout.of, Interface({**good, "strides": (3, 1)}))


INTS = {"shape": (4,), "typestr": "<i4", "version": 3}
"""The interface of four integers, without their memory."""


class WithBuffer(bytearray):
    """A buffer whose `__array_interface__` names no other memory."""

    def __init__(self, items, interface):
        super().__init__(items)
        self.__array_interface__ = interface


class Picture:
    """As a picture of PIL: its `data` are bytes, made anew at each time, and all pictures have the same bytes."""

    @property
    def __array_interface__(self):
        return {"shape": (40, 60), "typestr": "|u1", "version": 3, "data": bytes([7]) * 2_400}


class Copies:
    """A tensor that gives a copy of its items, which goes with the capsule."""

    def __init__(self, items):
        self.items = items

    def __dlpack__(self):
        return self.items.copy().__dlpack__()


@unittest.skipIf(np is None, SKIPPED)
class Memory(unittest.TestCase):
    """Where arrays lie that say so in other ways than by a pair of an address and a flag."""

    def setUp(self):
        self.bytes = bytearray(range(64))
        self.numbers = np.frombuffer(self.bytes, "i4")

    def assert_refused(self, text, error, array, base=None):
        """Compared with another array, and over a base."""
        base = self.numbers if base is None else base
        for call in (
            lambda: nd.share_element(array, base),
            lambda: nd.share_element(base, array),
            lambda: Layout.of(array, base=base),
        ):
            with self.assertRaisesRegex(error, text) as caught:
                call()
            self.assertIn(type(caught.exception), (TypeError, ShapeError, nd.OutOfBoundsError))

    def test_data_is_a_buffer(self):
        """The memory of the buffer, from the offset on."""
        for data in (self.bytes, memoryview(self.bytes), self.numbers, np.frombuffer(self.bytes, "c16")):
            for offset, places in ((None, range(4)), (0, range(4)), (16, range(4, 8)), (48, range(12, 16))):
                interface = {**INTS, "data": data, **({} if offset is None else {"offset": offset})}
                array = Interface(interface)
                for number in range(16):
                    self.assertIs(nd.share_element(array, self.numbers[number:][:1]), number in places)
                    self.assertIs(nd.share_element(self.numbers[number, ...], array), number in places)
                self.assertEqual(Layout.of(array, base=self.bytes_as_ints()).places(), tuple(places))
                self.assertTrue(nd.share_element(array, array))
        backwards = Interface({**INTS, "strides": (-4,), "data": self.bytes, "offset": 12})
        self.assertEqual(Layout.of(backwards, base=self.bytes_as_ints()).places(), (3, 2, 1, 0))

    def bytes_as_ints(self):
        return memoryview(self.bytes).cast("i")

    def test_data_is_its_own_buffer(self):
        """Without `data` the object itself is the buffer, as the protocol says."""
        for interface in (INTS, {**INTS, "data": None}):
            array = WithBuffer(64, {**interface, "offset": 8})
            items = np.frombuffer(array, "i4")
            self.assertTrue(nd.share_element(array, items[2:3]))
            self.assertFalse(nd.share_element(array, items[:2]))
            self.assertEqual(Layout.of(array, base=items), Layout.of(items[2:6], base=items))
            self.assert_refused("^array: .* has no memory that can be read", TypeError, Interface(interface))

    def test_what_no_data_is(self):
        address = self.numbers.__array_interface__["data"][0]
        for wrong in (5, "abcdef", 2.5, [address, False], {}, object(), (), (address,), (address, False, 0)):
            self.assert_refused("^array: ", TypeError, Interface({**INTS, "data": wrong}))
        for wrong in (None, "64", float(address), True, -1, 2**64, np.zeros(2)):
            self.assert_refused("^array: .* pair", TypeError, Interface({**INTS, "data": (wrong, False)}))
        self.assert_refused("address 0", ShapeError, Interface({**INTS, "data": (0, False)}))
        self.assert_refused("C-contiguous", ShapeError, Interface({**INTS, "data": self.numbers[::2]}))
        self.assert_refused("is an integer", TypeError, Interface({**INTS, "data": self.bytes, "offset": "4"}))
        self.assertTrue(nd.share_element(Interface({**INTS, "data": (np.int64(address), False)}), self.numbers))

    def test_data_that_is_too_short(self):
        """What leaves the buffer would be compared with memory that isn't its own."""
        for offset, strides in ((49, None), (-1, None), (8, (-4,)), (0, (24,)), (65, None)):
            array = Interface({**INTS, "data": self.bytes, "offset": offset, "strides": strides})
            self.assert_refused("bytes", nd.OutOfBoundsError, array)
        empty = Interface({**INTS, "shape": (0, 4), "data": self.bytes, "offset": 99})
        self.assertFalse(nd.share_element(empty, self.numbers))

    def test_pictures(self):
        """A copy shares nothing, whatever its bytes are; both are held until they are compared."""
        one, other = Picture(), Picture()
        for _ in range(20):
            self.assertFalse(nd.share_element(one, other))
            self.assertEqual(Layout.of(one).shape, (40, 60))
            self.assertRaises(LayoutError, Layout.of, one, base=bytes(2_400))

    def test_copies_of_tensors(self):
        class Like(Copies):
            shape, strides, itemsize = (3_000,), (8,), 8

        for kind in (Copies, Like):
            one, other = kind(np.zeros(3_000)), kind(np.zeros(3_000))
            for _ in range(20):
                self.assertFalse(nd.share_element(one, other))

    def test_tensors_without_memory(self):
        self.assert_refused("address 0", ShapeError, Tensor(None, (5,), (1,)))
        self.assert_refused("device 2", ShapeError, Tensor(64, (5,), (1,), device=2))

    def test_scalars(self):
        """A scalar is a copy, which lies nowhere for long; an array with 0 axes lies where its element does."""
        records = np.zeros(5, [("a", "i4"), ("b", "f8")])
        for items in (np.arange(1_000.0), np.zeros(9, "?"), np.zeros(9, "S3"), np.zeros(9, "U3"), np.zeros(9, "M8[s]"), records):
            self.assert_refused("^array: .* is a scalar of NumPy, .*`a\\[k, ...\\]`", TypeError, items[3], items)
            with self.assertRaisesRegex(TypeError, "^base: .* is a scalar of NumPy"):
                Layout.of(items[:1], base=items[0])
            self.assertEqual(Layout.of(items[3, ...], base=items).places(), (3,))
            self.assertTrue(nd.share_element(items[3, ...], items[2:4]))
            self.assertFalse(nd.share_element(items[3, ...], items[4:]))
        self.assertEqual(Layout.of(np.float64(1)).shape, ())
        with self.assertRaisesRegex(ShapeError, "in a buffer"):  # (whose items no `memoryview` has)
            Layout.over(np.zeros(1, [("a", "M8[s]")])[0], 1)

    def test_arrays_of_each_kind(self):
        """As `numpy.shares_memory`, and where an array has no element False."""
        strings, objects, rows = np.zeros(6, "S5"), np.array([1, "a", None, 2.5]), np.zeros((3, 0, 2))
        masked = np.ma.masked_array(self.numbers, self.numbers > 5)
        only_read = np.broadcast_to(self.numbers[4:5], (3, 4))
        with tempfile.TemporaryFile() as file:
            file.write(bytes(64))
            mapped = np.memmap(file, "i4")
            for one, other in (
                (strings, strings[::-2]),
                (strings[::2], strings[1::2]),
                (objects[:2], objects[1:]),
                (objects[:2], objects[2:]),
                (rows, rows),
                (masked[1:3], self.numbers[2:]),
                (masked[1:3], self.numbers[:1]),
                (only_read, self.numbers[3:5]),
                (only_read, self.numbers[5:]),
                (mapped[::2], mapped[1::2]),
                (mapped[::2], mapped[8:]),
                (self.numbers.reshape(4, 4).view(np.matrix), self.numbers[15:]),
                (np.array(5), np.array(5)),
                (self.numbers[3:].view(np.recarray), self.numbers[3, ...]),
            ):
                for first, second in ((one, other), (Interface(one.__array_interface__), other)):
                    expected = bool(np.shares_memory(one, other))
                    self.assertIs(nd.share_element(first, second), expected, (one, other))
                    self.assertIs(nd.shares_memory(second, first), expected, (one, other))
        self.assertEqual(Layout.of(objects[1::2], base=objects).places(), (1, 3))
        for none in ("abc", [1, 2], self.numbers.flat, np.ndarray, object()):
            self.assert_refused("^(array|length|stride)", TypeError, none)

    def test_other_protocols(self):
        """`__array_struct__` is read by NumPy; what has an address on another device alone is none."""

        class Struct:
            def __init__(self, items):
                self.__array_struct__ = items.__array_struct__
                self.items = items

        class Wrong:
            __array_struct__ = 5

        class Cuda:
            __cuda_array_interface__ = {**INTS, "data": (64, False)}

        struct = Struct(self.numbers[3:9:2])
        self.assertEqual(Layout.of(struct), Layout.of(self.numbers[3:9:2]))
        self.assertEqual(Layout.of(struct, base=self.numbers).places(), (3, 5, 7))
        self.assertTrue(nd.share_element(struct, self.numbers[7:8]))
        self.assertFalse(nd.share_element(struct, self.numbers[6:7]))
        self.assert_refused("^array: ", TypeError, Wrong())
        self.assert_refused("^array: ", TypeError, Cuda())

    def test_attributes_beside_an_interface(self):
        """What has both is read by its interface, so that the address is that of the shape."""

        class Both(Interface):
            shape, strides, itemsize = (2,), (999,), 1

        array = Both(self.numbers[2:4].__array_interface__)
        self.assertEqual(Layout.of(array, base=self.numbers).places(), (2, 3))
        self.assertEqual(Layout.of(array), Layout.of(self.numbers[2:4]))


@unittest.skipIf(np is None, SKIPPED)
class TwoArrays(unittest.TestCase):
    """`share_element(x, y)` beside `numpy.shares_memory`."""

    def test_parts_of_one(self):
        """Parts of one base: slices, other axes, other shapes, other items, windows."""
        numbers, seen = random.Random("two arrays"), Counter()
        base = np.zeros(4_200, np.int64)
        for _ in range(PAIRS):
            one, other = self.part(numbers, base), self.part(numbers, base)
            expected = bool(np.shares_memory(one, other))
            self.assertIs(nd.share_element(one, other), expected, (one.__array_interface__, other.__array_interface__))
            seen["shared" if expected else "apart"] += 1
        print(f"test_parts_of_one: {dict(sorted(seen.items()))}")
        self.assertGreater(min(seen.values()), PAIRS // 10)

    def part(self, numbers, base):
        items = base.view(numbers.choice((np.int64, np.int64, np.int32, np.uint8, "V24")))
        items = items[: numbers.choice((30, 60, 120))]
        shape = numbers.choice(((-1,), (4, -1), (2, 5, -1), (2, 3, 2, -1)))
        lengths = [length for length in shape if length > 0]
        items = items[: len(items) // int(np.prod(lengths)) * int(np.prod(lengths))].reshape(shape)
        items = items.transpose(numbers.sample(range(items.ndim), items.ndim))
        if numbers.random() < 0.1:
            items = np.lib.stride_tricks.sliding_window_view(items, [min(2, length) for length in items.shape])
        return items[(..., *(self.entry(numbers, length) for length in items.shape))]

    def entry(self, numbers, length):
        if length and numbers.random() < 0.1:
            return numbers.randrange(length)
        step = numbers.choice((1, 1, 2, 3, 5, -1, -2, -3))
        return slice(*((numbers.choice((None, 0, 1, 2)), None) if step > 0 else (None, numbers.choice((None, 0)))), step)

    def test_layouts(self):
        """Layouts of one buffer share an element where arrays of them do."""
        numbers, base = random.Random("two layouts"), np.zeros(4_200, np.int64)
        for _ in range(PAIRS // 10):
            one, other = (self.part(numbers, base[:999]) for _ in range(2))
            if one.itemsize != 8 or other.itemsize != 8:
                continue
            layouts = [Layout.of(part, base=base) for part in (one, other)]
            self.assertIs(nd.share_element(*layouts), bool(np.shares_memory(one, other)), layouts)

    def test_buffers(self):
        whole = memoryview(array.array("i", range(20)))
        self.assertFalse(nd.share_element(whole[::2], whole[1::2]))
        self.assertTrue(nd.share_element(whole[::2], whole[1::3]))
        self.assertTrue(nd.share_element(whole, np.asarray(whole)[5:]))
        self.assertFalse(nd.share_element(whole, bytes(80)))
        records = np.zeros(5, [("a", "i4"), ("b", "i8")])
        self.assertFalse(nd.share_element(records["a"], records["b"]))
        self.assertTrue(nd.share_element(records["a"], records[2:]))

    def test_time(self):
        """What NumPy takes long for, or gives up, is decided in few steps: parts of one array, axis by axis."""
        whole = np.lib.stride_tricks.as_strided(np.zeros(1, np.int8), (10**5,) * 3, (10**10, 10**5, 1))
        one, other = whole[::6, 1::4, ::9], whole[3::4, 1::6, 1::6]
        with self.assertRaises(np.TooHardError):
            np.shares_memory(one, other, max_work=1_000)
        began = time.process_time()
        self.assertFalse(nd.share_element(one, other, max_work=50))
        self.assertTrue(nd.share_element(one, whole[3::9, 1::6, 3::6], max_work=50))
        self.assertLess(time.process_time() - began, 0.1)

    def test_no_guess(self):
        strides = [8 * (10**6 + number) for number in (39, 61, 63, 91, 121, 163)]
        one = np.lib.stride_tricks.as_strided(np.zeros(1), (60,) * 6, strides)
        other = np.lib.stride_tricks.as_strided(np.zeros(1), (60,) * 5, strides[1:])
        for work in (0, 20):
            with self.assertRaises(ShapeError) as caught:
                nd.share_element(one, other, max_work=work)
            self.assertEqual(caught.exception.kind, "Undecided")

    def test_refusals(self):
        items = np.zeros(3)
        for wrong in (None, 5, "abc", object(), [1, 2], Layout.over(3, 3)):
            self.assertRaises(TypeError, nd.share_element, items, wrong)
            self.assertRaises(TypeError, nd.share_element, wrong, items)


if __name__ == "__main__":
    unittest.main()
