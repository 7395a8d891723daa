"""Calls for arrays: NumPy's, or whatever has the attributes that are read. Their strides count in bytes."""

from __future__ import annotations

from math import gcd
from typing import NamedTuple, Optional, SupportsIndex

from . import _native as native
from ._errors import ShapeError, SizeOverflowError, error_of_kind
from ._numbers import FAR, Array, Lens, Numbers, above_0, integer, integers, no_array, not_64_bits, product, said
from ._reasons import of_size


class Reshaped(NamedTuple):
    """The order in which a reshape reads the elements, 'C' or 'F', and the new strides in bytes."""

    order: str
    strides: Lens


def element_strides(byte_strides: Numbers, itemsize: SupportsIndex) -> Lens:
    """Strides in bytes as strides in elements. Raises `ShapeError` where one is no multiple of the item size.

    >>> element_strides((24, -8), 8)
    (3, -1)
    """
    strides, unit = integers(byte_strides, "stride"), above_0(itemsize)
    if gcd(unit, *strides) != unit:
        axis = next(axis for axis, stride in enumerate(strides) if stride % unit)
        text = f"axis {axis}: stride {said(strides[axis])} is no multiple of the item size {said(unit)} (in bytes)"
        raise ShapeError("IncompatibleLayout", text, axis, {"stride": strides[axis], "itemsize": unit})
    return tuple([stride // unit for stride in strides])


def read_array(a: Array) -> tuple[Lens, Lens, int]:
    """The shape, the strides in bytes and the item size of an array, or of a `Layout`."""
    try:
        shape, strides, itemsize = a.shape, a.byte_strides if isinstance(a, native.Layout) else a.strides, a.itemsize
    except AttributeError:
        raise no_array(a) from None
    return integers(shape, "length"), integers(strides, "stride"), integer(itemsize, "itemsize")


def reshape_without_copy(a: Array, new_shape: Numbers, order: Optional[str] = "C") -> Reshaped:
    """The order and the strides, in bytes, with which an array has another shape, if no element has to be moved.

    `a` has a `shape`, `strides` and an `itemsize`. One new length may be -1, as in NumPy. With the new strides `a`
    equals `a.reshape(new_shape, order=..)` in the order that is returned. That is 'C' where no order is given, as in
    NumPy. The order `None` asks for 'C' if no element has to be moved then, else for 'F'. Raises what `reshape`
    does, of the first order that is tried; its text and its numbers count bytes.

    >>> class Columns: shape, strides, itemsize = (4, 3), (8, 32), 8
    >>> reshape_without_copy(Columns, (2, 2, 3))
    Reshaped(order='C', strides=(16, 8, 32))
    >>> reshape_without_copy(Columns, 12)
    Traceback (most recent call last):
    ndarray_layout.ShapeError: IncompatibleLayout: axis 1: the new shape joins it to the axis read before it, whose stride isn't length 3 times stride 32 (in bytes); shape (4, 3) with strides (8, 32) can't become (12,) in order 'C' without a copy, and order='F' can
    >>> reshape_without_copy(Columns, 12, order=None)
    Reshaped(order='F', strides=(8,))
    """
    (shape, strides, itemsize), wanted = read_array(a), integers(new_shape, "length")
    if -1 in wanted:
        wanted = without_minus_one(shape, wanted)
    if order is not None:
        strides = native.reshape(shape, strides, wanted, order, itemsize=itemsize)
        if order in ("A", "a"):
            order = "F" if native.is_layout_f(a) and not native.is_layout_c(a) else "C"
        return Reshaped(order.upper(), strides)
    try:
        return Reshaped("C", native.reshape(shape, strides, wanted, "C", itemsize=itemsize))
    except ShapeError as error:
        refusal = error
    try:
        return Reshaped("F", native.reshape(shape, strides, wanted, "F", itemsize=itemsize))
    except ShapeError:
        raise refusal from None


def without_minus_one(shape: Lens, new_shape: Lens) -> Lens:
    """The new shape with the length that NumPy would put in the place of one -1. It alone may be negative."""
    if -1 not in new_shape:
        return new_shape
    missing = new_shape.index(-1)
    for axis, length in enumerate(new_shape):
        if length < 0 and axis != missing:
            error = not_64_bits("length", length, True, axis)
            text = f"axis {axis}: length -1 is there twice, and only one may be -1"
            raise SizeOverflowError("Overflow", text, axis, {"length": length}) if length == -1 else error
    others, size = product([length for length in new_shape if length != -1]), product(shape)
    fault = of_size(shape) if size >= FAR else None
    if fault:
        raise error_of_kind(*fault)
    if others == 0 or size % others:
        which = "any" if others == size == 0 else "no"
        text = f"axis {missing}: {which} length times {said(others)} is the size {said(size)}"
        raise ShapeError("IncompatibleShape", text, missing, {"size": size, "others": others})
    return tuple([size // others if length == -1 else length for length in new_shape])
