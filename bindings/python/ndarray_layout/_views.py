"""The layouts that are made of one that was accepted: each lies where that one does, and is accepted by a promise."""

from __future__ import annotations

from typing import TYPE_CHECKING, Any, Optional, Sequence, SupportsIndex

from . import _native as native
from ._errors import ShapeError
from ._numbers import Numbers, axis_of, axis_twice, integers, listing, said

if TYPE_CHECKING:
    from typing_extensions import Self


class Views(native.Layout):
    """The part of `Layout` that makes other layouts."""

    __slots__ = ()

    def flip(self, axis: Optional[Numbers] = None) -> Self:
        """The coordinates of some axes, or of all, in reverse order: NumPy's `flip`.

        Axes below 0 count from the end. Raises `IndexError` for an axis that isn't there, `ShapeError` for one twice.

        >>> Layout.over(6, (2, 3)).flip(1)
        Layout(start=2, shape=(2, 3), strides=(3, -1), length=6, writable=True)
        """
        axes = range(len(self.shape)) if axis is None else {*self._axes(axis)}
        return self[tuple([slice(None, None, -1 if at in axes else 1) for at in range(len(self.shape))])]

    def expand_dims(self, axis: Numbers) -> Self:
        """The layout with new axes of length 1, numbered as the result numbers them: NumPy's `expand_dims`.

        >>> Layout.over(6, (2, 3)).expand_dims((0, -1)).shape
        (1, 2, 3, 1)
        """
        count = len(self.shape) + len(listing(axis, "axis"))
        axes = {*self._axes(axis, count)}
        return self[tuple([None if at in axes else slice(None) for at in range(count)])]

    def split_at(self, axis: SupportsIndex, index: SupportsIndex) -> tuple[Self, Self]:
        """The coordinates of an axis below an index, and those from it on. Raises what `split_at` does.

        >>> [part.places() for part in Layout.over(6, (2, 3)).split_at(axis=1, index=1)]
        [(0, 3), (1, 2, 4, 5)]
        """
        first, second = native.split_at(self.start, self.shape, self.strides, axis, index)
        return self._kept(*first, self.writable), self._kept(*second, self.writable)

    # ---- Axes

    def moveaxis(self, source: Numbers, destination: Numbers) -> Self:
        """Some axes at other positions, and the others in their order: NumPy's `moveaxis`.

        Raises `ShapeError` where there isn't one position for each axis, and what `flip` does.

        >>> Layout.over(24, (2, 3, 4)).moveaxis(0, -1).shape
        (3, 4, 2)
        """
        moved, positions = self._axes(source), self._axes(destination)
        if len(moved) != len(positions):
            numbers = {"source": len(moved), "destination": len(positions)}
            text = f"{len(positions)} positions for {len(moved)} axes"
            raise ShapeError("IncompatibleShape", text, None, numbers)
        at_position = dict(zip(positions, moved))
        others = iter(sorted({*range(len(self.shape))}.difference(moved)))
        positions_of_all = range(len(self.shape))
        return self.permuted_axes(tuple([at_position[at] if at in at_position else next(others) for at in positions_of_all]))

    def _axes(self, axes: Numbers, count: Optional[int] = None) -> Sequence[int]:
        """Axes of so many, each once, as numbers from 0."""
        count = len(self.shape) if count is None else count
        found: dict[int, None] = {}
        for axis in listing(axes, "axis"):
            number = axis_of(axis, count)
            if number in found:
                raise axis_twice(number)
            found[number] = None
        return [*found]

    # ---- Shapes

    def broadcast_to(self, shape: Numbers) -> Self:
        """The layout read as one of another shape: NumPy's `broadcast_to`.

        It isn't writable: all coordinates of a new axis have one place.

        >>> Layout.over(3, 3).broadcast_to((2, 3))
        Layout(start=0, shape=(2, 3), strides=(0, 1), length=3, writable=False)
        """
        lens = integers(shape, "length")
        return self._kept(self.start, lens, native.broadcast(self.shape, self.strides, lens), False)

    def windows(self, window: Numbers) -> Self:
        """All windows of a shape: first the index of the window, then the index in it. Raises what `windows` does.

        It isn't writable: windows overlap. A window longer than its axis is a `ShapeError`, as a `ValueError` in NumPy.

        >>> Layout.over(5, 5).windows(3)
        Layout(start=0, shape=(3, 3), strides=(1, 1), length=5, writable=False)
        """
        shape, strides = native.windows(self.shape, self.strides, window)
        for axis, (length, block) in enumerate(zip(self.shape, shape[self.ndim :])):
            if block > length:
                text = f"axis {axis}: a window of length {said(block)} is longer than the axis, of length {said(length)}"
                raise ShapeError("IncompatibleShape", text, axis, {"window": block, "length": length})
        return self._kept(self.start, shape, strides, False)

    def exact_chunks(self, chunk: Numbers) -> Self:
        """The chunks of a shape that lie side by side: first the number of the chunk, then the index in it.

        What is left over at the end of an axis is left out. Raises what `exact_chunks` does.

        >>> Layout.over(7, 7).exact_chunks(3)
        Layout(start=0, shape=(2, 3), strides=(3, 1), length=7, writable=True)
        """
        return self._kept(self.start, *native.exact_chunks(self.shape, self.strides, chunk), self.writable)


def squeezed(layout: Views, axis: Numbers) -> Views:
    """A layout without some axes of length 1."""
    axes = {*layout._axes(axis)}
    for at in sorted(axes):
        if layout.shape[at] != 1:
            text = f"axis {at}: length {said(layout.shape[at])} isn't 1, and the axis can't be left out"
            raise ShapeError("IncompatibleShape", text, at, {"length": layout.shape[at]})
    return layout[tuple([0 if at in axes else slice(None) for at in range(len(layout.shape))])]
