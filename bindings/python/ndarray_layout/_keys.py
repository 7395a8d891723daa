"""The elements of slices, as the layer takes them, and NumPy's keys: those that aren't usual, and their errors."""

from __future__ import annotations

from numbers import Integral
from operator import index
from typing import Any, Iterable, NamedTuple, Optional, Sequence, SupportsIndex, Union

from ._errors import OutOfBoundsError, ShapeError, SizeOverflowError
from ._numbers import LIMIT, Lens, Numbers, as_integer, entries, integers, not_64_bits, said, written

class View(NamedTuple):
    """A layout, and the place of its first index."""

    start: int
    shape: Lens
    strides: Lens


class Slice(NamedTuple):
    """A range of coordinates of one axis, and the step from one pick to the next.

    A negative bound counts from the end of the axis; a missing end is its length. With a negative step the first pick
    is the last coordinate before the end.
    """

    start: int = 0
    end: Optional[int] = None
    step: int = 1


Elem = Union[Slice, SupportsIndex, None]
"""What a slice does with one axis: a range, one coordinate, or `None` for a new axis of length 1."""

Elems = Iterable[Elem]
"""What a slice does with all axes. A `Slice` is a tuple itself: alone it is one element and not three coordinates."""


SLICE, INDEX, NEW_AXIS, SLICE_WITH_END = range(4)
"""The kinds of elements of a slice, as the module in C reads them: each element is a kind, a start, an end and a step."""


def fields_of(elems: Elems) -> list[Any]:
    """The elements of a slice, each of them read once: four numbers of each, or the error of one that is none of C's."""
    fields: list[Any] = []
    for elem in (elems,) if isinstance(elems, Slice) else entries(elems, "elems", "elements of a slice"):
        if isinstance(elem, Slice):
            start, end, step = elem
            fields += (SLICE, start, 0, step) if end is None else (SLICE_WITH_END, start, end, step)
            if bool in map(type, elem):
                raise _no_element(fields, len(fields) - 3 + [*map(type, elem)].index(bool))
        elif elem is None:
            fields += (NEW_AXIS, 0, 0, 1)
        else:
            fields += (INDEX, elem, 0, 1)
            if type(elem) is not int and as_integer(elem) is None:
                raise _no_element(fields, len(fields) - 3)
    return [_number_of(fields, at) for at in range(len(fields))]


def _number_of(fields: Sequence[Any], at: int) -> int:
    """A number of a slice, or its error where it is none of C's."""
    try:
        number = index(fields[at])
    except TypeError:
        raise _no_element(fields, at) from None
    if -(2**63) <= number < 2**63:
        return number
    axis, name = _named(fields, at)
    raise SizeOverflowError("Overflow", f"axis {axis}: {name} {said(number)} is past 64 bits", axis, {name: number})


def _no_element(fields: Sequence[Any], at: int) -> TypeError:
    axis, name = _named(fields, at)
    kinds = "integer, `nd.Slice` or `None`, which `basic_key` makes of NumPy's keys"
    return TypeError(f"axis {axis}: {written(fields[at])} is no {kinds if name == 'index' else name}")


def _named(fields: Sequence[Any], at: int) -> tuple[int, str]:
    """The axis and the name of a number of a slice."""
    element, field = divmod(at, 4)
    name = "index" if fields[4 * element] == INDEX else ("kind", "start", "end", "step")[field]
    return sum(head != NEW_AXIS for head in fields[: 4 * element : 4]), name


# ---- NumPy's keys


def basic_key(shape: Numbers, key: Any) -> list[Elem]:
    """A basic slice of NumPy, as `slice_view` takes it: the same coordinates of each axis in the same order.

    A `Slice` among the keys, or alone, is unchanged. Raises `IndexError` and `ValueError` where NumPy does,
    `TypeError` for what is no integer, slice, `...` or `None`, and `OverflowError` for a negative length. NumPy takes
    booleans, lists and arrays by other rules.

    >>> basic_key((4, 5), (slice(None, None, -2), None))
    [Slice(start=0, end=4, step=-2), None, Slice(start=0, end=5, step=1)]
    >>> basic_key((4, 5), Slice(1, None, -2))
    [Slice(start=1, end=None, step=-2), Slice(start=0, end=5, step=1)]
    """
    fields = fields_of_key(lengths_of(shape, "length"), key)
    return [_elem_of(*fields[at : at + 4]) for at in range(0, len(fields), 4)]


def _elem_of(head: int, start: int, end: int, step: int) -> Elem:
    if head == NEW_AXIS:
        return None
    if head == INDEX:
        return start
    return Slice(start, end if head == SLICE_WITH_END else None, step)


def lengths_of(numbers: Numbers, name: str) -> Lens:
    """A list of lengths, each of 64 bits."""
    lens = integers(numbers, name)
    for axis, length in enumerate(lens):
        if not 0 <= length < 2**64:
            raise not_64_bits(name, length, True, axis)
    return lens


def fields_of_key(shape: Sequence[int], key: Any) -> list[int]:
    """The elements of a basic slice of NumPy, four numbers of each, or its error."""
    fields: list[int] = []
    axis = 0
    for entry in _one_for_each_axis(shape, key):
        if entry is None:
            fields += fields_of((None,))
        else:
            fields += _basic_fields(axis, shape[axis], entry)
            axis += 1
    return fields


def _one_for_each_axis(shape: Sequence[int], key: Any) -> list[Any]:
    """The entries of a key, with whole axes in the place of `...`, or at the end."""
    entries = list(key) if isinstance(key, tuple) and not isinstance(key, Slice) else [key]
    given = sum(entry is not None and entry is not Ellipsis for entry in entries)
    gaps = [k for k, entry in enumerate(entries) if entry is Ellipsis]
    if given > len(shape):
        numbers = {"indices": given, "axes": len(shape)}
        raise OutOfBoundsError("OutOfBounds", f"{given} indices are too many for {len(shape)} axes", None, numbers)
    if len(gaps) > 1:
        raise OutOfBoundsError("OutOfBounds", f"{len(gaps)} of the indices are '...', where one may be")
    gap = gaps[0] if gaps else len(entries)
    entries[gap : gap + 1] = [slice(None)] * (len(shape) - given)
    return entries


def _no_basic_slice(entry: Any) -> str:
    """What is wrong with an entry of a key, and what to write instead."""
    if type(entry).__name__ in ("bool", "bool_"):
        return f"{written(entry)} is no basic slice: NumPy takes it for a mask; an index is 0 or 1"
    kind, shape = getattr(entry, "dtype", None), getattr(entry, "shape", None)
    if isinstance(entry, (list, range)) or type(shape) is tuple and shape:
        array = f"an array of {kind} with shape {written(shape)}" if type(shape) is tuple else written(entry)
        return f"{array} is no basic slice: NumPy copies what a mask or a list of indices picks, and a layout copies nothing"
    return f"{written(entry)} is no basic slice: an entry is an integer, a slice, `...` or `None`"


def _basic_fields(axis: int, length: int, entry: Any) -> tuple[int, ...]:
    """One entry of a key, for an axis."""
    if isinstance(entry, slice):
        try:
            start, stop, step = entry.indices(length)
        except TypeError as error:
            raise TypeError(f"axis {axis}: {error}") from None
        except ValueError:
            raise ShapeError("Unsupported", f"axis {axis}: the step is 0", axis, {"step": 0}) from None
        if step > 0:
            return (SLICE_WITH_END, start, stop, min(step, LIMIT))
        return (SLICE_WITH_END, stop + 1, start + 1, max(step, -LIMIT))
    if isinstance(entry, Slice):
        return tuple(fields_of(entry))
    coordinate = as_integer(entry) if isinstance(entry, Integral) or not hasattr(entry, "dtype") else None
    if coordinate is None:
        raise TypeError(f"axis {axis}: {_no_basic_slice(entry)}")
    if not -length <= coordinate < length:
        text = f"axis {axis}: index {said(coordinate)} is out of bounds of length {said(length)}"
        raise OutOfBoundsError("OutOfBounds", text, axis, {"index": coordinate, "length": length})
    return (INDEX, coordinate % length, 0, 1)
