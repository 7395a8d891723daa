"""Buffers: their items, what NumPy makes of them, and where they lie in memory."""

from __future__ import annotations

import sys
from contextlib import suppress
from numbers import Integral
from pickle import PickleBuffer
from struct import calcsize
from struct import error as StructError
from types import SimpleNamespace
from typing import TYPE_CHECKING, Any, Optional, SupportsIndex

from . import _native as native
from ._errors import OutOfBoundsError, ShapeError
from ._numbers import Lens, as_integer, written

if TYPE_CHECKING:
    import numpy


def shown(buffer: Any, name: str = "buffer") -> memoryview:
    """A `memoryview` of a buffer. Where NumPy has no format for an array's items, as for dates, they are bytes."""
    try:
        return memoryview(buffer)
    except TypeError:
        array = _array_of(buffer, name)
        if array is None:
            raise TypeError(f"{name}: {_no_memory(buffer)}") from None
        return shown(array, name)
    except (BufferError, ValueError) as error:
        if not is_numpys(buffer) or is_scalar(buffer):
            raise ShapeError("IncompatibleBuffer", str(error)) from None
    return memoryview(_without_format(buffer))


_CPU, _CUDA_HOST = 1, 3
"""DLPack's devices whose memory has addresses of this process."""

DEVICES = {2: "CUDA", 4: "OpenCL", 7: "Vulkan", 8: "Metal", 10: "ROCm", 13: "CUDA managed", 14: "oneAPI"}
"""The names of others."""


def check_device(device: int, name: str) -> None:
    """Raises `ShapeError` for the memory of a device that has no addresses of this process."""
    if device not in (_CPU, _CUDA_HOST):
        text = f"{name}: the memory of a tensor on a device {device} has no address here"
        text = text.replace(f"device {device}", f"device {device} ({DEVICES[device]})") if device in DEVICES else text
        raise ShapeError("IncompatibleBuffer", text, None, {"device": device})


def _array_of(value: Any, name: str) -> Any:
    """An array of NumPy over the memory of what is no buffer and says by a protocol where it is, which it holds; else `None`."""
    if is_numpys(value) or not any(hasattr(value, protocol) for protocol in ("__array_interface__", "__array_struct__", "__dlpack__")):
        return None
    import numpy

    try:
        if not hasattr(value, "__dlpack__") or hasattr(value, "__array_interface__"):
            return numpy.asarray(value)
        check_device(int(value.__dlpack_device__()[0]), name)
        return numpy.from_dlpack(value)
    except ShapeError:
        raise
    except (AttributeError, BufferError, RuntimeError, TypeError, ValueError):
        return None


def _no_memory(value: Any) -> str:
    """That a value has no memory to be read, and what to write instead."""
    kind = type(value)
    name = kind.__name__ if kind.__module__ == "builtins" else f"{kind.__module__.partition('.')[0]}.{kind.__name__}"
    text = f"{name} has no memory that can be read: it is no buffer, array or tensor"
    if hasattr(value, "__cuda_array_interface__"):
        return f"{name} has no memory with an address here: it is on a CUDA device"
    if hasattr(value, "chunks"):
        return f"{text}, but one in chunks; `numpy.asarray` copies it, and `first_conflict` takes its shape and chunks"
    if isinstance(value, (list, tuple)) or hasattr(value, "to_numpy"):
        return f"{text}; `numpy.asarray` makes an array of it"
    if isinstance(value, str):
        return f"{text}; `encode` makes bytes of it"
    return f"{text}; a count of elements is an integer, not {written(value)}" if isinstance(value, float) else text


def is_numpys(value: Any) -> bool:
    """Whether a value is an array of NumPy, or one of its scalars. (there is none before NumPy is imported)"""
    numpy = sys.modules.get("numpy")
    return numpy is not None and isinstance(value, (getattr(numpy, "ndarray", ()), getattr(numpy, "generic", ())))


def is_plain_array(value: Any) -> bool:
    """Whether a value is an array of NumPy's own class, and of no class that is made of it."""
    numpy = sys.modules.get("numpy")
    return numpy is not None and type(value) is getattr(numpy, "ndarray", None)


def is_contiguous_array(value: Any) -> bool:
    """Whether a value is such an array whose items have bytes and lie side by side: in the order of rows, or of columns."""
    return is_plain_array(value) and value.itemsize > 0 and value.flags.forc


def is_scalar(value: Any) -> bool:
    """Whether a value is a scalar of NumPy: a copy of an element, which says the address of one more copy."""
    numpy = sys.modules.get("numpy")
    return numpy is not None and isinstance(value, getattr(numpy, "generic", ()))


def refuse_scalar(value: Any, name: str) -> None:
    """Raises `TypeError` for a scalar of NumPy, where an address is read."""
    if is_scalar(value):
        text = "is a scalar of NumPy, which doesn't say where in memory an element lies; an array does, as `a[k, ...]`"
        raise TypeError(f"{name}: {written(value)} {text}")


def _without_format(array: Any) -> Any:
    """The items of an array as so many bytes each. (`array.view` makes no bytes of references to objects)"""
    import numpy

    interface = {**array.__array_interface__, "typestr": f"|V{array.itemsize}"}
    del interface["descr"]
    return numpy.asarray(SimpleNamespace(__array_interface__=interface, holds=array))


def count_items(buffer: Any) -> tuple[int, int, Optional[str]]:
    """How many items a buffer has, their size and their format. A number stands for so many items of a byte."""
    if type(buffer) is int:
        return buffer, 1, None
    if type(buffer) is not bytes and isinstance(buffer, Integral):
        number = as_integer(buffer)
        if number is not None:
            return number, 1, None
    view = side_by_side(buffer)
    return view.nbytes // view.itemsize, view.itemsize, format_of(view, view.itemsize)


def format_of(view: memoryview, itemsize: int) -> Optional[str]:
    """The format of items of so many bytes, or `None` where it says another size, as that of packed records of ctypes does."""
    try:
        size = calcsize(view.format)
    except (StructError, ValueError):  # (of what `struct` has no letter for, as records)
        size = view.itemsize
    return view.format if size == itemsize else None


def no_bytes(what: str) -> ShapeError:
    """The error of items without a byte."""
    return ShapeError("IncompatibleBuffer", f"{what} have 0 bytes", None, {"itemsize": 0})


def side_by_side(buffer: Any, in_rows: bool = False, name: str = "buffer") -> memoryview:
    """A buffer whose items lie side by side: in the order of rows, where that is asked, else of any axes."""
    view = shown(buffer, name)
    if view.itemsize == 0:
        raise no_bytes("items of the buffer")
    if not view.contiguous and not in_rows and is_numpys(buffer):
        axes = sorted(range(buffer.ndim), key=lambda axis: -int(buffer.strides[axis]))
        view = shown(buffer.transpose(axes), name)  # (its items lie side by side where no axis is backwards or has gaps)
    if not (view.c_contiguous if in_rows else view.contiguous):
        order = "C-contiguous" if in_rows else "contiguous in any order of its axes"
        shape, strides = (buffer.shape, buffer.strides) if is_numpys(buffer) else (view.shape, view.strides)
        text = f"the buffer isn't {order}: it has the shape {shape} and strides of {strides} bytes"
        raise ShapeError("IncompatibleBuffer", text)
    return view


# ---- What NumPy makes of them


def array_over(
    items: Any, kind: numpy.dtype[Any], offset: int, shape: Lens, byte_strides: Lens
) -> numpy.ndarray[Any, Any]:
    """An array over items that lie side by side, those of an array or a `memoryview`, which is held as long as the array lives.

    `numpy.ndarray` refers to the object that it is given, and leaves it free to move its memory, or to unmap it. So
    it is given an array: that which holds the items, or one which NumPy made of the `memoryview`, and which keeps that.
    """
    import numpy

    is_view = type(items) is memoryview
    held = numpy.asarray(PickleBuffer(items).raw()) if is_view else items  # (bytes in the order of memory, also of columns)
    try:
        return numpy.ndarray(shape, kind, held, offset, byte_strides)
    except ValueError as error:
        raise ShapeError("IncompatibleBuffer", f"NumPy has no such array: {error}") from None


def dtype_of(buffer: Any, items: memoryview) -> numpy.dtype[Any]:
    """The dtype of a buffer's items: an array's own, else that of their format where it has their size, else NumPy's.

    An attribute `dtype` of another class is nobody's word: bytes that are taken for references end the process.
    """
    import numpy

    if is_numpys(buffer):
        return numpy.asarray(buffer).dtype
    with suppress(TypeError):  # (of what a letter doesn't name, as records)
        kind = numpy.dtype(items.format)
        if kind.itemsize == items.itemsize:
            return kind
    found: numpy.dtype[Any] = _as_numpy(items).dtype
    return found


def _as_numpy(view: memoryview) -> numpy.ndarray[Any, Any]:
    import numpy

    try:
        return numpy.asarray(view)
    except (TypeError, ValueError, RuntimeError):
        text = f"NumPy has no dtype for the format {view.format!r} of {view.itemsize} bytes"
        raise ShapeError("IncompatibleBuffer", text) from None


def read_dtype(dtype: Any) -> numpy.dtype[Any]:
    """A dtype of NumPy, or the error of what says none."""
    import numpy

    try:
        kind: numpy.dtype[Any] = numpy.dtype(dtype)
    except Exception as error:  # (of many classes)
        raise TypeError(f"dtype: {error}") from None
    return kind


def size_of_item(itemsize: Optional[SupportsIndex], dtype: Any) -> SupportsIndex:
    """The size of an item, which is given or that of a dtype."""
    if dtype is None:
        if itemsize is None:
            raise TypeError("itemsize is missing: itemsize= or dtype= says how many bytes an item has")
        return itemsize
    if itemsize is not None:
        raise ShapeError("BadArgument", f"itemsize {written(itemsize)} beside a dtype, which says it itself")
    kind = read_dtype(dtype)
    if kind.hasobject:
        raise TypeError(f"dtype: bytes can't be taken for {kind}: references to objects are no bytes")
    return kind.itemsize


def dtype_as(dtype: Any, buffer: Any, items: memoryview) -> numpy.dtype[Any]:
    """The dtype that items are to have. Raises `TypeError` where bytes would become references, or references bytes."""
    kind = read_dtype(dtype)
    if not (kind.hasobject or is_numpys(buffer) or "O" in items.format):
        return kind
    own = dtype_of(buffer, items)
    if own != kind and (own.hasobject or kind.hasobject):
        raise TypeError(f"items of the dtype {own} can't be taken for {kind}: references to objects are no bytes")
    return kind


# ---- Where they lie


def items_of_size(base: Any, itemsize: int) -> memoryview:
    """The items of a base, which are of the size of an array's."""
    refuse_scalar(base, "base")
    view = side_by_side(base, name="base")
    if view.itemsize != itemsize:
        numbers = {"itemsize": itemsize, "base": view.itemsize}
        raise ShapeError("IncompatibleBuffer", f"items of {itemsize} bytes, in a base of {view.itemsize}", None, numbers)
    return view


def items_before(address: int, base: memoryview) -> int:
    """How many items of a base lie in memory before an address, where element (0, .., 0) of an array lies."""
    start, rest = divmod(address - address_of(base), base.itemsize)
    if start < 0:
        raise OutOfBoundsError("OutOfBounds", f"the array begins {-start} items below the base", None, {"start": start})
    if rest:
        text = f"the array begins {rest} bytes within an item of the base"
        raise ShapeError("IncompatibleLayout", text, None, {"bytes": rest})
    return start


def address_of(view: memoryview) -> int:
    """Where the first element of what a `memoryview` shows lies in memory."""
    return native.address(view)
