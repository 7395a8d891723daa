"""Rows of places, one after another."""

from __future__ import annotations

from itertools import repeat
from typing import Iterator, NamedTuple, Sequence

from . import _native as native
from ._errors import ShapeError
from ._numbers import Lens


class Row(NamedTuple):
    """Places along one axis: the first one, the stride to the next, and how many there are.

    A `range` of these numbers has no step 0, and a slice up to their end none that ends below 0: so take `places` or
    `as_slice`.

    >>> for row in rows(5, (2, 3), (-3, -1)):
    ...     print(list(row.places()), b"abcdef"[row.as_slice()])
    [5, 4, 3] b'fed'
    [2, 1, 0] b'cba'
    """

    start: int
    stride: int
    length: int

    def places(self) -> Sequence[int]:
        """Each place: a `range`, or where the stride is 0 a tuple that has the one place `length` times.

        >>> Row(2, -1, 3).places(), Row(7, 0, 3).places()
        (range(2, -1, -1), (7, 7, 7))
        """
        if self.stride == 0:
            return (self.start,) * self.length
        return range(self.start, self.start + self.length * self.stride, self.stride)

    def as_slice(self) -> slice:
        """Python's slice that takes these places of a buffer: `buffer[row.as_slice()]`.

        Raises `ShapeError` of the kind 'Unsupported' for several places with the stride 0.

        >>> Row(2, -1, 3).as_slice()
        slice(2, None, -1)
        """
        if self.stride == 0 and self.length > 1:
            text = f"the stride is 0, and a slice takes no place {self.length} times"
            raise ShapeError("Unsupported", text, None, {"stride": 0, "length": self.length})
        step = self.stride or 1
        stop = self.start + self.length * step
        return slice(self.start, None if stop < 0 else stop, step)


def each_row(starts: Lens, stride: int, length: int) -> Iterator[Row]:
    """The rows that begin at some places."""
    each = zip(starts, repeat(stride), repeat(length))
    return map(tuple.__new__, repeat(Row), each)  # (in half the time of `map(Row, ..)`)


def joined(start: int, shape: Lens, strides: Lens, order: int, unit: int) -> Iterator[Row]:
    """The places in an order in few rows."""
    in_order = range(len(shape)) if order == 0 else reversed(range(len(shape)))
    axes = [axis for axis in in_order if shape[axis] != 1]
    if not axes:
        return iter((Row(start, unit, 1),))
    shape, strides = tuple([shape[axis] for axis in axes]), tuple([strides[axis] for axis in axes])
    while len(shape) > 1:
        last = len(shape) - 1
        merged = native.merge_axes(shape, strides, last - 1, last)
        if merged is None:
            break
        shape, strides = ((*numbers[: last - 1], numbers[last]) for numbers in merged)
    return _joined(native.rows(start, shape, strides))


def _joined(each: Iterator[Row]) -> Iterator[Row]:
    """Rows of one stride, joined where one begins a stride after the last place of the one before."""
    for start, stride, length in each:
        end = start + stride * length
        break
    else:
        return
    for following, _, more in each:
        if following == end:
            length += more
        else:
            yield Row(start, stride, length)
            start, length = following, more
        end = following + stride * more
    yield Row(start, stride, length)
