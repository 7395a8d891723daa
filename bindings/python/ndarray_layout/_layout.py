"""`Layout`: a layout that was accepted."""

from __future__ import annotations

from dataclasses import dataclass
from operator import index as as_int
from typing import TYPE_CHECKING, Any, Iterable, Iterator, Optional, SupportsIndex, TypeVar

from . import _native as native
from ._arrays import element_strides
from ._buffers import array_over, dtype_as, dtype_of, format_of, is_contiguous_array, items_before, items_of_size, no_bytes, side_by_side
from ._errors import OutOfBoundsError, ShapeError
from ._numbers import LIMIT, Lens, integer, work_limit, written
from ._rows import Row
from ._sharing import MAX_WORK, Part, share_byte
from ._sources import read_in_memory, read_source
from ._views import Views

if TYPE_CHECKING:
    import numpy

Made = TypeVar("Made", bound="Layout")


@dataclass(frozen=True, init=False, eq=False, repr=False)
class Layout(Views):
    """A layout that was accepted over `length` elements, so every index lies within them.

    It is `writable` where it keeps the no-alias rule, so no two indices have one place: `has_overlap` is false. Then its
    arrays may be written, if their buffer may; else they are only to be read, as a write at one index would change
    another. Asked for by `writable=True`, a layout that breaks the rule is a `ShapeError`; `writable=False` makes any
    one only to be read. What is made of an accepted layout is accepted: a slice, a reshape or a permutation keeps
    `writable`, and windows and what is broadcast are only to be read. Strides, places and the length count elements.

    Of a buffer or an array it keeps the `itemsize`, the bytes of an element, and their `format`, as `memoryview` has it,
    or `None` where that says another size, as of packed records of ctypes; of a count these are 1 and `None`. Layouts that
    differ in the format alone are equal.

    >>> layout = Layout.over(6, (2, 3), (-3, 1))
    >>> layout
    Layout(start=3, shape=(2, 3), strides=(-3, 1), length=6, writable=True)
    >>> layout[1, ::-1]
    Layout(start=2, shape=(3,), strides=(-1,), length=6, writable=True)
    >>> layout.T.places()
    (3, 0, 4, 1, 5, 2)
    >>> Layout(2, (2, 3), (-3, 1), length=6)
    Traceback (most recent call last):
    ndarray_layout.OutOfBoundsError: the lowest place, 3 before the start 2, is below 0 (in elements)
    """

    __slots__ = ()

    start: int
    shape: Lens
    strides: Lens
    length: int
    writable: bool
    itemsize: int
    format: Optional[str]

    def __repr__(self) -> str:
        names = ("start", "shape", "strides", "length", "writable", *["itemsize"] * (self.itemsize != 1))
        return f"{type(self).__qualname__}({', '.join([f'{name}={getattr(self, name)!r}' for name in names])})"

    def __reduce__(self) -> tuple[Any, ...]:
        numbers = self.start, self.shape, self.strides, self.length, self.writable, self.itemsize, self.format
        return _accepted, (type(self), *numbers)  # (which is checked anew: bytes from elsewhere may be unpickled)

    def __array__(self, *_: Any, **__: Any) -> Any:
        raise TypeError("a Layout has no elements: `as_array(buffer)` makes an array of it")

    __iter__ = None  # (a row is `layout[k]`; places come from `places` and `rows`)

    # ---- Places

    def index_of(self, place: SupportsIndex) -> Optional[Lens]:
        """The index that has a place, or `None` where no index has it: the other way round of `place`.

        Raises `ShapeError` of the kind 'Unsupported' where the layout breaks the no-alias rule, as windows do: there
        several indices may have one place. Takes time for the axes alone.

        >>> layout = Layout.over(6, (2, 2), (-3, 1))
        >>> layout.index_of(1), layout.index_of(2)
        ((1, 1), None)
        """
        if self.has_overlap:
            raise ShapeError("Unsupported", f"several indices of {written(self)} may have one place")
        if 0 in self.shape:
            return None
        rest, index = integer(place, "place") - self.start, [0] * len(self.shape)
        axes = [axis for axis, length in enumerate(self.shape) if length > 1]
        for axis in axes:
            if self.strides[axis] < 0:  # (counted from the last coordinate the stride is above 0)
                rest -= (self.shape[axis] - 1) * self.strides[axis]
        for axis in sorted(axes, key=lambda axis: -abs(self.strides[axis])):
            count, rest = divmod(rest, abs(self.strides[axis]))
            if not 0 <= count < self.shape[axis]:
                return None
            index[axis] = count if self.strides[axis] > 0 else self.shape[axis] - 1 - count
        return None if rest else tuple(index)

    def places(self, order: str = "C") -> Lens:
        """The places of all indices, in an order. Takes time and memory for each index."""
        return native.places(self.start, self.shape, self.strides, order)

    def rows(self, order: str = "C") -> Iterator[Row]:
        """The places along the axis that moves fastest in an order, for each index of the others, in that order.

        One call is made for all. It takes time, and memory for a number, for each row.

        >>> list(Layout.over(6, (2, 3), (-3, 1)).rows())
        [Row(start=3, stride=1, length=3), Row(start=0, stride=1, length=3)]
        """
        return native.rows(self.start, self.shape, self.strides, order)

    def joined_rows(self, order: str = "C") -> Iterator[Row]:
        """The places in an order in few rows: axes of one stride are one row, and so are rows that touch.

        Read in their order they are the places of `rows`. Where the layout is row-major there is one row.

        >>> list(Layout.over(24, (2, 3, 4))[:, 1:].joined_rows())    # (and 4 in `rows`)
        [Row(start=4, stride=1, length=8), Row(start=16, stride=1, length=8)]
        """
        return native.joined_rows(self.start, self.shape, self.strides, order)

    def has_distinct_places(self, max_work: Optional[int] = MAX_WORK) -> bool:
        """Whether no two indices have one place: exact. A writable layout has distinct places."""
        max_work = work_limit(max_work)
        return self.writable or native.has_distinct_places(self.shape, self.strides, max_work)

    def first_intersection(self, keys: Iterable[Any]) -> Optional[tuple[int, int]]:
        """Two slices by NumPy's keys that share an index: their positions, the less first; `None` if no two do.

        Where the layout has distinct places these are the slices that share one. See `first_intersection`.

        >>> Layout.over(6, (2, 3)).first_intersection([0, (1, 0), (..., -1)])
        (0, 2)
        """
        from ._conflicts import first_intersection_of_keys

        return first_intersection_of_keys(self.shape, keys)

    def intersects(self, first: Any, second: Any, max_work: Optional[int] = MAX_WORK) -> bool:
        """Whether two slices by NumPy's keys share a place: exact. See `share_element` for `max_work`.

        >>> layout = Layout.over(9, 9)
        >>> layout.intersects(slice(0, None, 9), slice(3, None, 6))
        False
        >>> windows = Layout.over(6, (4, 3), (1, 1))
        >>> windows.intersects(0, 2), windows.intersects(0, 3)
        (True, False)
        """
        max_work = work_limit(max_work)
        if not self.has_overlap:
            return self._intersect(first, second)
        one, other = (Part(part.start, part.shape, part.strides) for part in (self[first], self[second]))
        shared = share_byte(one, other, 1, max_work) if max_work != 0 else None
        if shared is None:
            text = f"places of {self} may overlap, and max_work={written(max_work)} steps don't decide whether these do"
            raise ShapeError("Undecided", text)
        return shared

    # ---- A picture

    def to_svg(self) -> str:
        """A picture as SVG: the view and the elements that it lies over, for light and dark pages.

        A layout of few elements has a cell for each index and for each element, with its coordinates and its place. Of
        a larger one there are the axes, with lengths and strides, and the stretch of the elements that it reaches.
        """
        from ._picture import svg_of

        return svg_of(self)

    def _repr_html_(self) -> str:
        """What notebooks show: a table of the numbers beside the picture."""
        from ._picture import html_of

        return html_of(self)

    # ---- Buffers

    def as_array(self, buffer: Any, dtype: Any = None) -> numpy.ndarray[Any, Any]:
        """A NumPy array of this layout over a buffer, whose items it has without a `dtype`.

        The items have the size of the layout's elements, and any size where that is over a count. Place k is the k-th item in
        memory, from the lowest, also where the buffer is an array in another order.
        The buffer may be all that `of` reads whose memory has an address here: also what has `__array_interface__`, as a picture of PIL,
        which is a copy, or a tensor of DLPack. An array holds it, and so keeps its owner alive.
        A layout that isn't writable gives an array that is only to be read, as `numpy.broadcast_to` does. While the array
        lives the buffer can't be closed or resized: its own methods raise `BufferError`, as after `numpy.frombuffer`.

        Raises `ShapeError` for an array with gaps or backwards, as `a[::2]` and `a[::-1]`, whose `base` may have none,
        where items have 0 bytes or another size, and where NumPy has no dtype for them or no array of so many axes or bytes;
        `TypeError` where items would be read or written as objects that are none, or the other way; `IndexError` where
        the buffer has fewer than `length` items.
        """
        if dtype is None and is_contiguous_array(buffer):
            items, kind, nbytes = buffer, buffer.dtype, buffer.nbytes
        else:
            items = side_by_side(buffer)
            kind = dtype_of(buffer, items) if dtype is None else dtype_as(dtype, buffer, items)
            nbytes = items.nbytes
        itemsize = kind.itemsize
        if itemsize == 0:
            raise no_bytes(f"items of the dtype {kind}")
        self._check_items(nbytes // itemsize, itemsize)
        array = array_over(items, kind, self.start * itemsize, self.shape, tuple([stride * itemsize for stride in self.strides]))
        if not self.writable:
            array.flags.writeable = False
        return array

    def as_memoryview(self, buffer: Any) -> memoryview:
        """A `memoryview` of this layout over the items of a buffer, which has to be contiguous.

        A `memoryview` of several axes has no gaps and isn't empty: other layouts raise `ShapeError` of the kind
        'IncompatibleBuffer', as a buffer that isn't C-contiguous does. A layout that isn't writable gives one that is only to
        be read. Raises what `as_array` does.

        >>> Layout.over(b"abcdef", 3, -2).as_memoryview(b"abcdef").tobytes()
        b'eca'
        """
        items = side_by_side(buffer, in_rows=True)
        self._check_items(items.nbytes // items.itemsize, items.itemsize)
        form = format_of(items, items.itemsize) or ""
        try:
            items = (items if self.writable else items.toreadonly()).cast("B").cast(form)
        except ValueError:
            text = f"a memoryview can't have items of the format {items.format!r} of {items.itemsize} bytes"
            raise ShapeError("IncompatibleBuffer", text) from None
        if self.ndim == 1:
            return items[Row(self.start, *self.strides, *self.shape).as_slice()]
        self._check_rows()
        stretch = items[self.start : self.start + self.size].cast("B")
        try:
            return stretch.cast(form, self.shape)
        except ValueError as error:  # (of more axes than a `memoryview` has)
            raise ShapeError("IncompatibleBuffer", str(error)) from None

    def _check_rows(self) -> None:
        """Raises `ShapeError` where this is no layout of a `memoryview` of several axes."""
        if 0 in self.shape:
            axis = self.shape.index(0)
            text = f"axis {axis}: a memoryview of several axes can't have the length 0"
            raise ShapeError("IncompatibleBuffer", text, axis, {"length": 0})
        for axis, (stride, wanted) in enumerate(zip(self.strides, native.default_strides(self.shape))):
            if self.shape[axis] > 1 and stride != wanted:
                text = f"axis {axis}: a memoryview of several axes can't have the stride {stride}, but {wanted} (in elements)"
                raise ShapeError("IncompatibleBuffer", text, axis, {"stride": stride, "wanted": wanted})

    def _check_items(self, count: int, itemsize: int) -> None:
        """Raises `ShapeError` for items of another size than the layout's elements, and `IndexError` for fewer of them.

        In more of them lies what was accepted over the elements. Those of a count have no size.
        """
        if itemsize != self.itemsize and (self.itemsize > 1 or self.format is not None):
            numbers = {"itemsize": self.itemsize, "buffer": itemsize}
            text = f"the layout is over elements of {self.itemsize} bytes, and the buffer has items of {itemsize}"
            raise ShapeError("IncompatibleBuffer", text, None, numbers)
        if count < self.length:
            numbers = {"length": self.length, "items": count}
            text = f"the layout is over {self.length} elements, and the buffer has {count} of {itemsize} bytes"
            raise OutOfBoundsError("OutOfBounds", text, None, numbers)


def layout_of(kind: type[Made], array: Any, base: Any, writable: Optional[bool]) -> Made:
    """`Layout.of` of any array."""
    source = (read_source if base is None else read_in_memory)(array)
    shape, byte_strides, itemsize, form, _ = source
    strides = native.default_strides(shape) if 0 in shape else element_strides(byte_strides, itemsize)
    if base is None:
        length = 0 if 0 in shape else sum([(length - 1) * abs(stride) for length, stride in zip(shape, strides)]) + 1
        start = native.layout_start(shape, strides, elem_size=itemsize, length=LIMIT + 1)
    else:
        items = items_of_size(base, itemsize)
        length = items.nbytes // itemsize
        start = 0 if 0 in shape else items_before(source.memory().address, items)
    return kind(start, shape, strides, length=length, writable=writable, itemsize=itemsize, format=form)


def _accepted(
    kind: type[Made],
    start: int,
    shape: Lens,
    strides: Lens,
    length: int,
    writable: bool,
    itemsize: int,
    format: Optional[str],
) -> Made:
    """`Layout`, or a class that is made of it, as `pickle` and `copy` call it."""
    return kind(start, shape, strides, length=length, writable=writable, itemsize=itemsize, format=format)
