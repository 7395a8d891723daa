"""What is read of arrays: shape, strides, item size, format and address, of whatever says them.

An array says them by its attributes, by `__array_interface__` or `__array_struct__`, by a DLPack capsule, or as a buffer.
No element is read.
"""

from __future__ import annotations

from itertools import accumulate
from operator import mul
from sys import byteorder
from typing import Any, Callable, NamedTuple, Optional

from . import _native as native
from ._arrays import read_array
from ._buffers import address_of, check_device, format_of, is_numpys, refuse_scalar, shown, side_by_side
from ._errors import ShapeError
from ._numbers import Lens, as_integer, integer, integers, written


class Memory(NamedTuple):
    """Where element (0, .., 0) of an array lies, and what keeps it there: as long as that lives no other memory has the
    address. So two addresses are compared while both of these live.
    """

    address: int
    held: Any


class Source(NamedTuple):
    """An array: its strides count in bytes, and `format` is `struct`'s. `find` is called where it has an element."""

    shape: Lens
    strides: Lens
    itemsize: int
    format: Optional[str]
    find: Callable[[], Memory]

    def memory(self) -> Memory:
        """Where an array lies that has an element, or the error of one that doesn't say it."""
        found = self.find()
        if found.address == 0:
            raise ShapeError("IncompatibleBuffer", "array: no element lies at address 0")
        return found


_FORMATS = {
    **{(0, bits): letter for bits, letter in zip((8, 16, 32, 64), "bhiq")},
    **{(1, bits): letter for bits, letter in zip((8, 16, 32, 64), "BHIQ")},
    **{(2, bits): letter for bits, letter in zip((16, 32, 64), "efd")},
    **{(5, bits): letter for bits, letter in zip((64, 128), ("Zf", "Zd"))},
    (6, 8): "?",
}
"""The formats of DLPack's kinds of numbers, by the code and the bits."""

_CODES = {"i": 0, "u": 1, "f": 2, "c": 5, "b": 6}
"""The codes of the letters of NumPy's `typestr`."""

_LETTERS = {*_CODES, *"mMOSUV"}
"""All letters of a `typestr` whose number counts bytes, or characters of four."""

def read_source(array: Any) -> Source:
    """What an array says of itself. Raises `TypeError` for what says nothing, and what the array itself raises."""
    if isinstance(array, memoryview):
        return _of_view(shown(array, "array"))
    if is_numpys(array):
        return _of_attributes(array, lambda: _memory_of_numpys(array))
    interface = getattr(array, "__array_interface__", None)  # (once: a picture makes a copy for it)
    if interface is not None:
        return _of_interface(array, interface)
    if hasattr(array, "strides"):
        return _of_attributes(array, lambda: _without_attributes(array).find())
    return _without_attributes(array)


def read_in_memory(array: Any) -> Source:
    """The same of an array whose address is to be read, which a scalar of NumPy hasn't."""
    refuse_scalar(array, "array")
    return read_source(array)


def _of_attributes(array: Any, find: Callable[[], Memory]) -> Source:
    shape, strides, itemsize = read_array(array)
    return Source(shape, strides, itemsize, _format_of(array, itemsize), find)


def _without_attributes(array: Any) -> Source:
    """What an array says of itself by a protocol, and not by attributes."""
    if hasattr(array, "__dlpack__") or type(array).__name__ == "PyCapsule":
        return _of_capsule(array)
    return read_source(_as_numpys(array)) if hasattr(array, "__array_struct__") else _of_view(shown(array, "array"))


def _of_view(view: memoryview) -> Source:
    if view.suboffsets:
        raise ShapeError("IncompatibleBuffer", "a layout has no suboffsets")
    return _of_attributes(view, lambda: Memory(address_of(view), view))


def _as_numpys(array: Any) -> Any:
    """An array as NumPy reads its `__array_struct__`."""
    import numpy

    try:
        return numpy.asarray(array)
    except ValueError as error:
        raise TypeError(f"array: {error}") from None


def _memory_of_numpys(array: Any) -> Memory:
    return Memory(int(array.__array_interface__["data"][0]), array)


def _format_of(array: Any, itemsize: int) -> Optional[str]:
    """The format of an array's items, where it is a buffer that has one, or a `Layout`."""
    if isinstance(array, native.Layout):
        return array.format
    try:
        return format_of(memoryview(array), itemsize)
    except (TypeError, BufferError, ValueError):
        return None


# ---- __array_interface__


def _of_interface(array: Any, interface: Any) -> Source:
    try:
        typestr, shape = interface["typestr"], integers(interface["shape"], "length")
        order, letter, size = typestr[0], typestr[1], _size_of(typestr[1], typestr[2:].partition("[")[0])  # (as <M8[s])
    except (KeyError, IndexError, TypeError, ValueError) as error:
        raise TypeError(f"array: its __array_interface__ is none: {written(error)}") from None
    itemsize = 4 * size if letter == "U" else size
    strides = interface.get("strides")
    steps = tuple([step * itemsize for step in _row_strides(shape)]) if strides is None else integers(strides, "stride")
    kind = {"S": f"{size}s", "O": "O"}.get(letter) or _FORMATS.get((_CODES.get(letter, -1), 8 * size))
    is_other = order == (">" if byteorder == "little" else "<")
    form = f"{order}{kind}" if kind and is_other else kind
    return Source(shape, steps, itemsize, form, lambda: _memory_of(array, interface, shape, steps, itemsize))


def _size_of(letter: str, digits: str) -> int:
    """The number of a `typestr`: that of references to objects may be left out."""
    if letter not in _LETTERS:
        raise ValueError(f"no type of items: {letter}")
    return 8 if letter == "O" and not digits else int(digits)


def _memory_of(array: Any, interface: Any, shape: Lens, strides: Lens, itemsize: int) -> Memory:
    """The memory that an interface says: by an address, or as a buffer, of which an array of such a layout is a part."""
    data = interface.get("data")
    if isinstance(data, tuple):
        return Memory(_address_of_pair(data), (array, interface))
    view = side_by_side(array if data is None else data, in_rows=True, name="array: its data")
    offset = integer(interface.get("offset", 0), "array: its offset")
    offset = native.lay_over(shape, strides, itemsize=itemsize, nbytes=view.nbytes, offset=offset)  # (which refuses what leaves it)
    return Memory(address_of(view) + offset, view)


def _address_of_pair(data: tuple[Any, ...]) -> int:
    address = as_integer(data[0]) if len(data) == 2 else None
    if address is None or not 0 <= address < 2**64:
        raise TypeError(f"array: its data are no pair of an address and a flag, but {written(data)}")
    return address


def _row_strides(shape: Lens) -> Lens:
    """The strides of rows, in elements."""
    return tuple(accumulate((max(length, 1) for length in shape[:0:-1]), mul, initial=1))[::-1] if shape else ()


# ---- DLPack


def _of_capsule(array: Any) -> Source:
    """An array of DLPack. The capsule is dropped as it came, and then its maker frees what it made for it."""
    capsule = array.__dlpack__() if hasattr(array, "__dlpack__") else array
    try:
        tensor = native.tensor(capsule)
    except ValueError as error:
        raise TypeError(f"array: {written(capsule)} is no DLPack capsule that is there to be read: {error}") from None
    if type(tensor) is int:
        raise ShapeError("IncompatibleBuffer", f"a tensor of {tensor} axes", None, {"axes": tensor})
    shape, strides, code, bits, lanes, address, device = tensor
    itemsize, rest = divmod(bits * lanes, 8)
    if rest or itemsize == 0:
        raise ShapeError("IncompatibleBuffer", f"items of {bits} bits lie within bytes", None, {"bits": bits, "lanes": lanes})
    found = tuple([stride * itemsize for stride in (_row_strides(shape) if strides is None else strides)])
    kind = _FORMATS.get((code, bits)) if lanes == 1 else None
    return Source(shape, found, itemsize, kind, lambda: _memory_of_tensor(address, device, capsule))


def _memory_of_tensor(address: int, device: int, capsule: Any) -> Memory:
    """The memory of a tensor. Raises `ShapeError` where its device has no addresses of this process."""
    check_device(device, "array")
    return Memory(address, capsule)
