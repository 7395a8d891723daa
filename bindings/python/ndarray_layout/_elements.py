"""Whether two parts of one array, two arrays or two layouts share an element."""

from __future__ import annotations

from typing import Any, NamedTuple, Optional, overload

from . import _native as native
from ._arrays import read_array
from ._buffers import is_plain_array
from ._errors import ShapeError
from ._keys import fields_of_key, lengths_of
from ._numbers import LIMIT, Array, Lens, not_64_bits, said, work_limit, written
from ._sharing import MAX_WORK, Part, share_byte
from ._sources import Memory, read_in_memory

_NOTHING: Any = type("Nothing", (), {"__repr__": lambda self: "nothing"})()


@overload
def share_element(a: Any, first: Any, *, max_work: Optional[int] = MAX_WORK) -> bool:
    ...


@overload
def share_element(a: Array, first: Any, second: Any, max_work: Optional[int] = MAX_WORK) -> bool:
    ...


def share_element(a: Any, first: Any, second: Any = _NOTHING, max_work: Optional[int] = MAX_WORK) -> bool:
    """Whether `a[first]` and `a[second]` share an element, for two keys; whether `a` and `first` do, for two arrays.

    Exact. Keys are basic slices: integers, slices, `...` and `None`; a `Slice` is one too. `a` then has a `shape`,
    `strides` in bytes and an `itemsize`. Where `a` keeps the no-alias rule the time is that of its axes alone, however
    large it is. Raises `IndexError` and `ValueError` where `a[first]` or `a[second]` does, and `TypeError` for other
    keys, such as booleans and arrays with 0 axes.

    Two arrays share an element where they share a byte of memory, as `numpy.shares_memory` says. They may be of any
    layout and of different items: arrays of NumPy, buffers, what has `__array_interface__` or `__array_struct__`,
    tensors of DLPack in the memory of this process. Each is read once, and its memory is held until they are compared.
    What shows a copy of its memory, as a picture of PIL does, shares none. NumPy is needed for the address of a buffer.
    Raises `TypeError` for a scalar of NumPy, which is a copy: `x[k]` is one, and `x[k, ...]` an array. Raises
    `ShapeError` for memory of other devices, and `IndexError` where an array leaves the buffer that it names as its
    `data`. Items of 0 bytes share none, where NumPy says of some that they share bytes of other items.

    Two layouts are of one buffer, and share an element where they share a place. Raises `ShapeError` where they are of
    another length or item size: of two buffers. `Layout.of(x)` has its own lowest element at place 0, so
    `Layout.of(x[:2])` and `Layout.of(x[2:4])` share one here; `Layout.of(x[:2], base=x)` lies where it lies in `x`.

    Where the bytes of `a` break the no-alias rule (`has_overlap`), as windows and broadcasts do, and for two arrays or
    layouts, places are compared in Python, in at most `max_work` steps of some 2 microseconds: `None` is without end, 0
    compares nothing. Raises `ShapeError` of the kind 'Undecided' where these don't decide, and never guesses. Parts
    of one array that keeps the rule take a few steps for each axis, where NumPy may take exponential time.

    >>> class Table: shape, strides, itemsize = (10**12, 4), (32, 8), 8
    >>> share_element(Table, (slice(0, None, 2), 1), (slice(1, None, 2), 1))
    False
    >>> share_element(Table, (slice(None, None, -3), slice(1, 3)), (..., 2))
    True
    >>> class Windows: shape, strides, itemsize = (4, 3), (8, 8), 8
    >>> share_element(Windows, 0, 1), share_element(Windows, 0, 3)
    (True, False)
    >>> share_element(Windows, 0, 1, max_work=0)
    Traceback (most recent call last):
    ndarray_layout.ShapeError: Undecided: elements of shape (4, 3) and strides (8, 8) in bytes may overlap
    >>> whole = Layout.over(10**12, (10**6, 10**6))
    >>> share_element(whole[::6, 1::4], whole[3::4, 1::2]), share_element(whole[::6], whole[3::9])
    (False, True)
    """
    if second is _NOTHING:
        return _share_memory(a, first, max_work)
    shared = native.share_keys(a, first, second) if _is_usual(max_work) else None
    if shared is not None:
        return shared
    max_work = work_limit(max_work)
    shape, strides, itemsize = read_array(a)
    if not 0 <= itemsize < 2**64:
        raise not_64_bits("itemsize", itemsize, True, None)
    if native.has_overlap(shape, strides, itemsize=itemsize) if itemsize else native.has_overlap(shape, strides):
        return _share_byte((shape, strides, itemsize), first, second, max_work)
    whole = native.Layout(0, lengths_of(shape, "length"), (0,) * len(shape), length=1)
    return whole._intersect(first, second) and itemsize > 0


def shares_memory(a: Any, b: Any, max_work: Optional[int] = MAX_WORK) -> bool:
    """Whether two arrays share a byte of memory, or two layouts of one buffer a place: `share_element(a, b)`.

    Exact, as NumPy's is by default. Where `max_work` steps don't decide it raises `ShapeError`, as NumPy raises
    `TooHardError`; NumPy's -1, without end, is `None` here.

    >>> whole = Layout.over(12, 12)
    >>> shares_memory(whole[::2], whole[1::2]), shares_memory(whole[::2], whole[1::3])
    (False, True)
    """
    return _share_memory(a, b, max_work)


def _is_usual(max_work: Any) -> bool:
    """Whether so many steps decide what `_usual` does, and are a number."""
    return max_work is MAX_WORK or max_work is None


def _share_byte(array: tuple[Lens, Lens, int], first: Any, second: Any, max_work: Optional[int]) -> bool:
    """`share_element` of an array whose elements may overlap."""
    shape, strides, itemsize = array
    start = native.layout_start(shape, strides, length=LIMIT + 1)
    whole = native.Layout(start, shape, strides, length=LIMIT + 1, writable=False)
    refusal = f"elements of shape {written(shape)} and strides {written(strides)} in bytes may overlap"
    if max_work == 0:
        raise ShapeError("Undecided", refusal)
    one, other = (_part(whole[key]) for key in (first, second))
    shared = share_byte(one, other, itemsize, max_work)
    if shared is None:
        raise ShapeError("Undecided", f"{refusal}, and max_work={written(max_work)} steps don't decide whether these do")
    return shared


def _part(of: native.Layout) -> Part:
    return Part(of.start, of.shape, of.strides)


def _share_memory(a: Any, b: Any, max_work: Optional[int]) -> bool:
    """`share_element` of two arrays, or of two layouts of one buffer."""
    shared = native.share(a, b) if _is_usual(max_work) else None
    return _share_any_memory(a, b, work_limit(max_work)) if shared is None else shared


def _share_any_memory(a: Any, b: Any, max_work: Optional[int]) -> bool:
    """The same of any arrays and layouts."""
    if isinstance(a, native.Layout) != isinstance(b, native.Layout):
        raise TypeError("array: an array and a layout can't be compared; `Layout.of(array, base=buffer)` makes a layout of the array")
    if isinstance(a, native.Layout) and isinstance(b, native.Layout) and (a.length, a.itemsize) != (b.length, b.itemsize):
        raise _of_two_buffers(a, b)
    one, other = _part_of(a), _part_of(b)
    shared = share_byte(one.part, other.part, one.itemsize, max_work, other.itemsize) if max_work != 0 else None
    if shared is None:
        shapes = f"shapes {written(one.part.shape)} and {written(other.part.shape)}"
        text = f"arrays of the {shapes} may overlap, and max_work={written(max_work)} steps don't decide whether they do"
        raise ShapeError("Undecided", text)
    return shared


def _of_two_buffers(a: native.Layout, b: native.Layout) -> ShapeError:
    """The error of layouts that were accepted over buffers of another length, or of other items."""
    one, other = f"{said(a.length)} items of size {a.itemsize}", f"{said(b.length)} of size {b.itemsize}"
    numbers = {"length": a.length, "itemsize": a.itemsize, "other_length": b.length, "other_itemsize": b.itemsize}
    return ShapeError("IncompatibleLayout", f"the layouts are of two buffers: {one}, and {other}", None, numbers)


class _Held(NamedTuple):
    """A part, the size of an item, and what keeps the items where they lie."""

    part: Part
    itemsize: int
    memory: Optional[Memory]


_NO_ITEMS = _Held(Part(0, (0,), (1,)), 1, None)


def _part_of(a: Any) -> _Held:
    """An array as a part of the memory, in bytes, or a layout as one of its buffer."""
    if isinstance(a, native.Layout):
        return _Held(_part(a), 1, None)
    if is_plain_array(a):  # (whose numbers are NumPy's own, and have 64 bits)
        if 0 in a.shape or a.itemsize == 0:
            return _NO_ITEMS
        address = a.__array_interface__["data"][0]
        if address != 0:
            return _Held(Part(address, a.shape, a.strides), a.itemsize, Memory(address, a))
    source = read_in_memory(a)
    lengths_of(source.shape, "length")
    for axis, stride in enumerate(source.strides):
        if not -(2**63) <= stride < 2**63:
            raise not_64_bits("stride", stride, False, axis)
    if not 0 <= source.itemsize < 2**64:
        raise not_64_bits("itemsize", source.itemsize, True, None)
    if 0 in source.shape or source.itemsize == 0:
        return _NO_ITEMS
    memory = source.memory()
    return _Held(Part(memory.address, source.shape, source.strides), source.itemsize, memory)
