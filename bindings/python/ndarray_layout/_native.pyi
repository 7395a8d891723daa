"""The calls of the library as Python has them, and the base of `Layout`: what `native/` defines, with its types.

The documentation that `help` shows is this: `docs_of_native.py` makes it a header of `native.c`.
"""

from typing import Any, Callable, Iterator, Optional, Protocol, Sequence, SupportsIndex, TypeVar, overload

from typing_extensions import Concatenate, ParamSpec, Self

from ._keys import Elems, View
from ._numbers import Array, Lens, Numbers
from ._rows import Row

_Result = TypeVar("_Result", covariant=True)
_Others = ParamSpec("_Others")

class _OfLayout(Protocol[_Others, _Result]):
    @overload
    def __call__(self, shape: Numbers, strides: Numbers, *others: _Others.args, **named: _Others.kwargs) -> _Result: ...
    @overload
    def __call__(self, array: Array, /, *others: _Others.args, **named: _Others.kwargs) -> _Result: ...

class _OfView(Protocol[_Others, _Result]):
    @overload
    def __call__(
        self, start: SupportsIndex, shape: Numbers, strides: Numbers, *others: _Others.args, **named: _Others.kwargs
    ) -> _Result: ...
    @overload
    def __call__(self, start: SupportsIndex, array: Array, /, *others: _Others.args, **named: _Others.kwargs) -> _Result: ...

def takes_array(call: Callable[Concatenate[Numbers, Numbers, _Others], _Result]) -> _OfLayout[_Others, _Result]: ...
def takes_array_after_start(
    call: Callable[Concatenate[SupportsIndex, Numbers, Numbers, _Others], _Result]
) -> _OfView[_Others, _Result]: ...

@takes_array
def layout_start(
    shape: Numbers,
    strides: Numbers,
    *,
    elem_size: SupportsIndex = 1,
    length: SupportsIndex,
    writable: bool = False,
    itemsize: Optional[SupportsIndex] = None,
) -> int:
    """The start of a layout over `length` elements of `elem_size` bytes, at which its lowest place is 0.

    Of an array, or with `itemsize`, the strides, the length and the start count bytes, as those of `lay_over`.

    Raises `ShapeError` for different counts of axes, `OverflowError` where the layout is too large, `IndexError` where
    it spans more than the elements, and `ShapeError` where `writable` is true and it breaks the no-alias rule.

    >>> layout_start((2, 3), (-3, 1), length=6)
    3
    >>> layout_start((2, 2), (3, 1), length=4)
    Traceback (most recent call last):
    ndarray_layout.OutOfBoundsError: the highest place 4 is past a buffer of 4 elements
    """

@takes_array_after_start
def check_layout(
    start: SupportsIndex,
    shape: Numbers,
    strides: Numbers,
    *,
    elem_size: SupportsIndex = 1,
    length: SupportsIndex,
    writable: bool = False,
    itemsize: Optional[SupportsIndex] = None,
) -> None:
    """Raises what `layout_start` does where a layout with this start doesn't lie within `length` elements.

    Of an array, or with `itemsize`, the start, the strides and the length count bytes, as those of `lay_over`.

    >>> check_layout(3, (2, 2), (-2, 1), length=5)
    >>> check_layout(1, (2, 2), (-2, 1), length=5)
    Traceback (most recent call last):
    ndarray_layout.OutOfBoundsError: the lowest place, 2 before the start 1, is below 0 (in elements)
    """

@overload
def lay_over(
    shape: Numbers,
    strides: Numbers,
    *,
    itemsize: Optional[SupportsIndex] = None,
    dtype: Any = None,
    nbytes: SupportsIndex,
    offset: Optional[SupportsIndex] = None,
    writable: bool = False,
) -> int:
    """The offset of element (0, .., 0) of an array with these strides, in bytes, over a buffer of `nbytes` bytes.

    The size of an item is `itemsize`, or that of a `dtype`, as NumPy's or a word for one; a dtype of references to
    objects is a `TypeError`, since bytes are none. An array may stand in the place of the shape, the strides and the
    item size.

    Strides and `offset` count in bytes. Without an offset the lowest element begins at byte 0. Raises what
    `layout_start` does where the array doesn't lie within the buffer. What it returns is what
    `numpy.ndarray(shape, dtype, buffer, offset, strides)` takes.

    A stride of 0 lies within any buffer that holds an item: 2**62 indices over one byte are accepted, and no list of them
    is. Who doesn't trust the shape looks at how many indices there are, or asks for `writable=True`, which refuses them.

    A stride may be no multiple of the item size, as that of a field of packed records is. Errors count bytes. Of an
    array without an element the strides alone have to fit, so 0 records fit 0 bytes.

    >>> lay_over((2, 3), (-12, 4), itemsize=4, nbytes=24)
    12
    >>> lay_over((2, 3), (-12, 4), itemsize=4, nbytes=23)
    Traceback (most recent call last):
    ndarray_layout.OutOfBoundsError: the highest place 23 is past a buffer of 23 bytes; the array needs 24 bytes
    >>> lay_over(2**62, 0, itemsize=1, nbytes=1)
    0
    >>> lay_over(3, 7, itemsize=4, nbytes=20, offset=2, writable=True)    # of 4 bytes in each 7, the last at 16
    2
    """

@overload
def lay_over(
    array: Array, /, *, nbytes: SupportsIndex, offset: Optional[SupportsIndex] = None, writable: bool = False
) -> int: ...

@takes_array
def has_overlap(shape: Numbers, strides: Numbers, *, itemsize: Optional[SupportsIndex] = None) -> bool:
    """Whether a layout breaks the no-alias rule. One that keeps it has no two indices with one place.

    Of an array, or with `itemsize`, it is the rule of the bytes of all elements, and strides count bytes.

    >>> has_overlap((2, 3), (3, 1)), has_overlap((2, 3), (0, 1))
    (False, True)
    """

@takes_array
def has_distinct_places(
    shape: Numbers,
    strides: Numbers,
    max_work: Optional[int] = 100_000,
    *,
    itemsize: Optional[SupportsIndex] = None,
) -> bool:
    """Whether no two indices of a layout have one place: exact, where the no-alias rule is only sufficient.

    Of an array, or with `itemsize`: whether no two elements share a byte. Strides then count bytes.

    A layout that breaks the rule is decided in Python, in at most `max_work` steps of some 2 microseconds for each
    axis: `None` is without end, 0 tries nothing. Raises `ShapeError` of the kind 'Undecided' where these don't
    decide, and never guesses. Raises what `has_overlap` does.

    >>> has_overlap((3, 2), (2, 3)), has_distinct_places((3, 2), (2, 3))
    (True, True)
    >>> has_distinct_places((4, 3), (2, 3))
    False
    """

@takes_array
def is_contiguous(shape: Numbers, strides: Numbers, *, itemsize: Optional[SupportsIndex] = None) -> bool:
    """Whether no two indices have one place, and all fill a stretch of the buffer without a gap, in any order of the axes.

    Of an array, or with `itemsize`, strides count bytes.

    >>> is_contiguous((2, 3), (-3, -1)), is_contiguous((5,), (2,))
    (True, False)
    """

@takes_array
def is_layout_c(shape: Numbers, strides: Numbers, *, itemsize: Optional[SupportsIndex] = None) -> bool:
    """Whether the places follow one another in row-major order.

    Of an array, or with `itemsize`, strides count bytes.

    >>> is_layout_c((2, 3), (3, 1)), is_layout_c((2, 3), (1, 2))
    (True, False)
    >>> class Pixels: shape, strides, itemsize = (2, 3), (12, 4), 4
    >>> is_layout_c(Pixels), is_layout_c((2, 3), (12, 4), itemsize=4), is_layout_c((2, 3), (12, 4))
    (True, True, False)
    """

@takes_array
def is_layout_f(shape: Numbers, strides: Numbers, *, itemsize: Optional[SupportsIndex] = None) -> bool:
    """Whether the places follow one another in column-major order.

    Of an array, or with `itemsize`, strides count bytes.

    >>> is_layout_f((2, 3), (3, 1)), is_layout_f((2, 3), (1, 2))
    (False, True)
    """

def default_strides(shape: Numbers) -> Lens:
    """The row-major strides of a shape: the last axis moves fastest. All 0 where a length is 0.

    >>> default_strides((2, 3, 4))
    (12, 4, 1)
    """

def fortran_strides(shape: Numbers) -> Lens:
    """The column-major strides of a shape: the first axis moves fastest. All 0 where a length is 0.

    >>> fortran_strides((2, 3, 4))
    (1, 2, 6)
    """

@takes_array_after_start
def place(
    start: SupportsIndex,
    shape: Numbers,
    strides: Numbers,
    index: Numbers,
    *,
    itemsize: Optional[SupportsIndex] = None,
) -> int:
    """The place of an index. Raises `IndexError` where it is no index of the shape.

    Of an array, or with `itemsize`, the start, the strides and the place count bytes.

    A negative coordinate is an `OverflowError`, first of all: it never counts from the end.

    >>> place(3, (2, 3), (-3, 1), (1, 2))
    2
    >>> place(3, (2, 3), (-3, 1), (1, 3))
    Traceback (most recent call last):
    ndarray_layout.OutOfBoundsError: axis 1: index 3 is out of bounds of length 3
    """

def next_index(shape: Numbers, index: Numbers, order: str = "C") -> Optional[Lens]:
    """The index after this one in an order, or `None` after the last one. Raises what `place` does of an index.

    >>> next_index((2, 3), (0, 2)), next_index((2, 3), (0, 2), order="F"), next_index((2, 3), (1, 2))
    ((1, 0), (1, 2), None)
    """

@takes_array_after_start
def places(
    start: SupportsIndex,
    shape: Numbers,
    strides: Numbers,
    order: str = "C",
    *,
    itemsize: Optional[SupportsIndex] = None,
) -> Lens:
    """The places of all indices, in an order. Takes time and memory for each index.

    The order 'A' is 'F' for a layout that is column-major and not row-major, else 'C'. Of an array, or with `itemsize`,
    the start, the strides and the places count bytes: each is that of the first byte of an element.

    >>> places(3, (2, 3), (-3, 1))
    (3, 4, 5, 0, 1, 2)
    """

@takes_array_after_start
def rows(
    start: SupportsIndex,
    shape: Numbers,
    strides: Numbers,
    order: str = "C",
    *,
    itemsize: Optional[SupportsIndex] = None,
) -> Iterator[Row]:
    """The places along the axis that moves fastest in an order, for each index of the others, in that order.

    One call is made for all rows, in time, and with memory for a number, for each. A layout without axes has one row,
    of one place. Of an array, or with `itemsize`, starts and strides count bytes.

    >>> list(rows(3, (2, 3), (-3, 1)))
    [Row(start=3, stride=1, length=3), Row(start=0, stride=1, length=3)]
    >>> list(rows(3, (2, 3), (-3, 1), order="F"))[0]
    Row(start=3, stride=-3, length=2)
    """

@takes_array_after_start
def joined_rows(
    start: SupportsIndex,
    shape: Numbers,
    strides: Numbers,
    order: str = "C",
    *,
    itemsize: Optional[SupportsIndex] = None,
) -> Iterator[Row]:
    """The places in an order in few rows: axes of one stride are one row, and so are rows that touch.

    Read in their order they are the places of `rows`, and no two that follow each other make up one row; a row of one
    place alone has the stride 1. So many reads of a file as there are rows, of stride 1, read a part of it. A call is
    made for each axis at most, and one for all rows; what touches is joined as the rows are taken. Of an array, or with
    `itemsize`, starts and strides count bytes, and rows whose stride is the item size have no gaps.

    >>> list(joined_rows(0, (2, 3, 4), (100, 4, 1)))
    [Row(start=0, stride=1, length=12), Row(start=100, stride=1, length=12)]
    >>> list(joined_rows(0, (2, 2, 3), (7, 4, 1)))
    [Row(start=0, stride=1, length=3), Row(start=4, stride=1, length=6), Row(start=11, stride=1, length=3)]
    """

@takes_array_after_start
def slice_view(
    start: SupportsIndex,
    shape: Numbers,
    strides: Numbers,
    elems: Elems,
    clamp: bool = False,
    *,
    itemsize: Optional[SupportsIndex] = None,
) -> View:
    """The view that a slice leaves of a view: one range or index for each axis, and any new axes.

    Of an array, or with `itemsize`, starts and strides count bytes.

    Raises `ShapeError` for another count of axes, `IndexError` for a bound or an index outside of its axis, and
    `ShapeError` for a step of 0. Where `clamp` is true a bound outside is moved to the nearest end, an index never.

    >>> slice_view(0, (2, 3), (3, 1), [1, Slice(step=-1)])
    View(start=5, shape=(3,), strides=(-1,))
    >>> slice_view(0, (2, 3), (3, 1), [1, Slice(0, 4)])
    Traceback (most recent call last):
    ndarray_layout.OutOfBoundsError: axis 1: bound 4 is past length 3, and isn't clamped; clamp=True moves it to the end, as NumPy does
    """

def slices_intersect(shape: Numbers, first: Elems, second: Elems, clamp: bool = False) -> bool:
    """Whether two slices of one shape share an index: exact for all steps. Raises what `slice_view` does.

    >>> slices_intersect((10,), [Slice(0, None, 9)], [Slice(3, None, 6)])
    True
    >>> slices_intersect((9,), [Slice(0, None, 9)], [Slice(3, None, 6)])
    False
    """

def picked(shape: Numbers, elems: Elems, clamp: bool = False) -> int:
    """How many indices a slice leaves. Raises what `slice_view` does.

    >>> picked((4, 5), [Slice(1), Slice(step=-2)])
    9
    """

def broadcast_shapes(*shapes: Numbers) -> Lens:
    """The common shape of some shapes, by NumPy's rule: `co_broadcast` in Rust. Raises `ShapeError` where there is none.

    >>> broadcast_shapes((2, 1), (3,)), broadcast_shapes((2, 1), (3,), (5, 1, 1)), broadcast_shapes()
    ((2, 3), (5, 2, 3), ())
    """

@takes_array
def broadcast(
    shape: Numbers, strides: Numbers, target: Numbers, *, itemsize: Optional[SupportsIndex] = None
) -> Lens:
    """The strides with which a layout is read as one of a shape that it can be broadcast to.

    Of an array, or with `itemsize`, strides count bytes.

    Raises `ShapeError` where it can't, then `OverflowError` where that shape is too large.

    >>> broadcast((2, 1), (5, 1), (3, 2, 4))
    (0, 5, 0)
    >>> broadcast((2, 1), (5, 1), (3, 4))
    Traceback (most recent call last):
    ndarray_layout.ShapeError: IncompatibleShape: axis 0: length 2 can't be broadcast to 3
    """

@takes_array
def merge_axes(
    shape: Numbers,
    strides: Numbers,
    take: SupportsIndex,
    into: SupportsIndex,
    *,
    itemsize: Optional[SupportsIndex] = None,
) -> Optional[tuple[Lens, Lens]]:
    """The shape and the strides after axis `take` is merged into axis `into`; `None` where no stride reaches both.

    Of an array, or with `itemsize`, strides count bytes.

    Raises `OverflowError` for a negative axis, `IndexError` for a missing one, then `ShapeError` for one axis twice.

    >>> merge_axes((2, 3), (3, 1), take=0, into=1)
    ((1, 6), (3, 1))
    >>> merge_axes((2, 3), (3, 1), take=1, into=0)
    """

@takes_array
def reshape(
    shape: Numbers,
    strides: Numbers,
    new_shape: Numbers,
    order: str = "C",
    *,
    itemsize: Optional[SupportsIndex] = None,
) -> Lens:
    """The strides of another shape with the same places in an order: no element is moved.

    The order 'A' is 'F' for a layout that is column-major and not row-major, else 'C'. Of an array, or with `itemsize`,
    strides count bytes. Raises `OverflowError` where the new shape is too large, and `ShapeError` where no strides
    would do; its text says what they count.

    >>> reshape((4, 4), (8, 1), (2, 2, 2, 2))
    (16, 8, 2, 1)
    >>> reshape((4, 4), (8, 1), (2, 8))
    Traceback (most recent call last):
    ndarray_layout.ShapeError: IncompatibleLayout: axis 1: the new shape joins it to the axis read before it, whose stride isn't length 4 times stride 1 (in elements); shape (4, 4) with strides (8, 1) can't become (2, 8) in order 'C' without a copy
    >>> class Squares: shape, strides, itemsize = (4, 4), (64, 8), 8
    >>> reshape(Squares, (2, 2, 2, 2)), reshape((4, 4), (64, 8), (2, 2, 2, 2), itemsize=8)
    ((128, 64, 16, 8), (128, 64, 16, 8))
    """

@takes_array
def permuted_axes(
    shape: Numbers, strides: Numbers, axes: Numbers, *, itemsize: Optional[SupportsIndex] = None
) -> tuple[Lens, Lens]:
    """The shape and the strides with the axes in another order: axis k is axis `axes[k]` of the layout.

    Of an array, or with `itemsize`, strides count bytes.

    Raises `OverflowError` for a negative axis, and `ShapeError` where the list isn't each axis once.

    >>> permuted_axes((2, 3, 4), (12, 4, 1), (2, 0, 1))
    ((4, 2, 3), (1, 12, 4))
    """

@takes_array
def windows(
    shape: Numbers, strides: Numbers, window: Numbers, *, itemsize: Optional[SupportsIndex] = None
) -> tuple[Lens, Lens]:
    """The shape and the strides of all windows of a shape: first the axes along which they move, then those in one.

    Of an array, or with `itemsize`, strides count bytes.

    Windows begin at each index from which they fit, so they overlap. The start is unchanged. Raises `ShapeError` where
    `window` hasn't one length for each axis, then where one is 0, then `OverflowError` where the result is too large.

    >>> windows((4, 5), (5, 1), (2, 3))
    ((3, 3, 2, 3), (5, 1, 5, 1))
    >>> windows((4, 5), (5, 1), (2, 0))
    Traceback (most recent call last):
    ndarray_layout.ShapeError: Unsupported: axis 1: the length of a window is 0, and has to be above 0
    """

@takes_array
def exact_chunks(
    shape: Numbers, strides: Numbers, chunk: Numbers, *, itemsize: Optional[SupportsIndex] = None
) -> tuple[Lens, Lens]:
    """The shape and the strides of the chunks of a shape: first the number of the chunk along each axis.

    Of an array, or with `itemsize`, strides count bytes.

    Chunks lie side by side; what is left over at the end of an axis is left out. The start is unchanged. Raises what
    `windows` does.

    >>> exact_chunks((4, 7), (7, 1), (2, 3))
    ((2, 2, 2, 3), (14, 3, 7, 1))
    """

@takes_array_after_start
def split_at(
    start: SupportsIndex,
    shape: Numbers,
    strides: Numbers,
    axis: SupportsIndex,
    index: SupportsIndex,
    *,
    itemsize: Optional[SupportsIndex] = None,
) -> tuple[View, View]:
    """The parts of a layout along an axis: the coordinates below an index, and those from it on.

    Of an array, or with `itemsize`, starts and strides count bytes.

    Raises `IndexError` where there is no such axis, or the index is greater than its length, and `OverflowError` where
    one of them is negative.

    >>> split_at(0, (2, 3), (3, 1), axis=1, index=1)
    (View(start=0, shape=(2, 1), strides=(3, 1)), View(start=1, shape=(2, 2), strides=(3, 1)))
    >>> split_at(0, (2, 3), (3, 1), axis=1, index=4)
    Traceback (most recent call last):
    ndarray_layout.OutOfBoundsError: axis 1: index 4 is past length 3
    """

# ---- What the package alone calls

def bind(view: type[View], out_of_bounds: type[Exception], /) -> None: ...
def version() -> str: ...
def reason(name: str, /, *arguments: Any) -> tuple[int, int, int, int, int, int, int, int]: ...
def reason_text(fields: tuple[int, int, int, int, int, int, int, int], /) -> str: ...
def first_shared(shape: Sequence[int], elems: bytes, counts: Sequence[int], /) -> Optional[tuple[int, int]]: ...
def share_index(shape: Sequence[int], one: bytes, other: bytes, /) -> bool: ...
def share(a: Any, b: Any, /) -> Optional[bool]: ...
def share_keys(array: Any, first: Any, second: Any, /) -> Optional[bool]: ...
def intersect(shape: Any, first: Any, second: Any, /) -> Optional[bool]: ...
def share_chunk(shape: Any, first: Any, second: Any, chunks: Any, /) -> Optional[bool]: ...
def address(buffer: Any, /) -> int: ...
def tensor(capsule: Any, /) -> Any: ...

class Layout:
    """A layout that was accepted: what `ndarray_layout.Layout` has in C."""

    start: int
    """The place of index (0, .., 0)."""
    shape: Lens
    """The length of each axis."""
    strides: Lens
    """The stride of each axis, in elements."""
    length: int
    """How many elements the buffer has over which the layout was accepted."""
    writable: bool
    """Whether it keeps the no-alias rule, and was accepted as one that may be written."""
    itemsize: int
    """The bytes of an element."""
    format: Optional[str]
    """The format of the elements, as `memoryview` has it, or `None`."""

    def __init__(
        self,
        start: SupportsIndex,
        shape: Numbers,
        strides: Numbers,
        *,
        length: SupportsIndex,
        writable: Optional[bool] = None,
        itemsize: SupportsIndex = 1,
        format: Optional[str] = None,
    ) -> None: ...
    def __getitem__(self, key: Any) -> Self: ...
    def _kept(self, start: int, shape: Lens, strides: Lens, writable: bool, /) -> Self: ...
    def _intersect(self, first: Any, second: Any, /) -> bool: ...

    @classmethod
    def over(
        cls,
        buffer: Any,
        shape: Numbers,
        strides: Optional[Numbers] = None,
        *,
        start: Optional[SupportsIndex] = None,
        order: Optional[str] = None,
        writable: Optional[bool] = None,
    ) -> Self:
        """Accepts a layout over a buffer, or over so many elements.

        The elements of a buffer are its items, in the order of memory: those of `bytes` are bytes, those of an array
        its numbers. Without strides the layout has no gaps, in the order 'C', or 'F' where that is given. Without a
        start its lowest place is 0. Strides count elements: `element_strides` makes such of NumPy's, and `of` reads an
        array. Raises what `layout_start` and `check_layout` do, and `ShapeError` where the buffer has gaps or items of 0
        bytes, or there is an order beside strides.

        >>> Layout.over(b"abcdef", (2, 3))
        Layout(start=0, shape=(2, 3), strides=(3, 1), length=6, writable=True)
        >>> Layout.over(6, 6, -1).start
        5
        """

    @classmethod
    def of(cls, array: Any, *, base: Any = None, writable: Optional[bool] = None) -> Self:
        """The layout of an array, or of what a `memoryview` shows, over its elements from the lowest to the highest.

        With a `base` it is one over the items of that buffer, from the lowest: what `as_array(base)` takes. Without
        one the array's own lowest element has place 0, so `Layout.of(a[2:]).as_array(a)` shows other rows than
        `Layout.of(a[2:], base=a).as_array(a)`. Of an array without an element all strides are 0, and it needs no items.

        Raises `ShapeError` where a stride is no multiple of the item size, as of packed records, where the base has
        gaps or items of another size, and where the layout is to be writable and breaks the no-alias rule; `IndexError`
        where the array doesn't lie within the base. A base needs NumPy. With one a scalar of NumPy, as `x[k]`, is a
        `TypeError`: it is a copy, and `x[k, ...]` an array.

        >>> Layout.of(memoryview(b"abcdef")[::-2])
        Layout(start=4, shape=(3,), strides=(-2,), length=5, writable=True)
        """

    def slice(self, elems: Elems, clamp: bool = False) -> Self:
        """A slice by the layer's elements. Raises what `slice_view` does: a bound outside is an `IndexError`.

        >>> Layout.over(4, 4).slice([Slice(1, None, -2)]).places()
        (3, 1)
        """

    def permuted_axes(self, axes: Numbers) -> Self:
        """The axes in another order: axis k is axis `axes[k]`. Raises what `permuted_axes` does."""

    def transpose(self, *axes: Any) -> Self:
        """The axes in another order, as NumPy takes them: reversed without any, and negative ones count from the end.

        >>> Layout.over(24, (2, 3, 4)).transpose(-1, 0, 1).shape
        (4, 2, 3)
        """

    def swapaxes(self, axis1: SupportsIndex, axis2: SupportsIndex) -> Self:
        """Two axes in each other's place: NumPy's `swapaxes`. Axes below 0 count from the end. Raises what `flip` does.

        >>> Layout.over(24, (2, 3, 4)).swapaxes(0, -1).shape
        (4, 3, 2)
        """

    def squeeze(self, axis: Optional[Numbers] = None) -> Self:
        """The layout without some axes of length 1, or without all of them: NumPy's `squeeze`.

        Raises `ShapeError` for an axis of another length, and what `flip` does.

        >>> Layout.over(6, (1, 2, 1, 3)).squeeze(0).shape, Layout.over(6, (1, 2, 1, 3)).squeeze().shape
        ((2, 1, 3), (2, 3))
        """

    def diagonal(self, offset: SupportsIndex = 0, axis1: SupportsIndex = 0, axis2: SupportsIndex = 1) -> Self:
        """The indices whose coordinates along two axes differ by an offset, as the last axis: NumPy's `diagonal`.

        It is as long as both axes reach, and its stride is the sum of theirs. Raises `ShapeError` where both axes are
        one, and what `flip` does.

        >>> Layout.over(12, (3, 4)).diagonal().places(), Layout.over(12, (3, 4)).diagonal(-1).places()
        ((0, 5, 10), (4, 9))
        """

    def reshape(self, shape: Numbers, *others: SupportsIndex, order: str = "C") -> Self:
        """The same places in an order along another shape, one length of which may be -1: one list, or its numbers.

        Raises what `reshape` does, and `ShapeError` where no one length makes the sizes equal.

        >>> Layout.over(6, (2, 3)).reshape((3, -1)).shape, Layout.over(6, (2, 3)).reshape(3, 2).strides
        ((3, 2), (2, 1))
        """

    def ravel(self, order: str = "C") -> Self:
        """The places in an order along one axis: NumPy's `ravel`, without its copy. Raises what `reshape` does.

        >>> Layout.over(6, (2, 3)).flip().ravel(), Layout.over(6, (2, 3)).T.ravel("F").strides
        (Layout(start=5, shape=(6,), strides=(-1,), length=6, writable=True), (1,))
        """

    def place(self, index: Numbers) -> int:
        """The place of an index. Raises what `place` does."""

    @property
    def ndim(self) -> int:
        """The count of axes."""

    @property
    def size(self) -> int:
        """How many indices there are."""

    @property
    def nbytes(self) -> int:
        """The bytes of all its elements, each index counted: the size times the item size."""

    @property
    def is_contiguous(self) -> bool:
        """Whether no two indices have one place, and all fill a stretch of the buffer without a gap, in any order of the axes.

        It is true of a layout without an index, as of an array of NumPy.
        """

    @property
    def is_layout_c(self) -> bool:
        """Whether the places follow one another in row-major order."""

    @property
    def is_layout_f(self) -> bool:
        """Whether the places follow one another in column-major order."""

    @property
    def has_overlap(self) -> bool:
        """Whether it breaks the no-alias rule. A writable layout never does."""

    @property
    def byte_strides(self) -> Lens:
        """The strides in bytes, as an array of this layout has them.

        >>> Layout.of(memoryview(bytes(24)).cast("i"))[::-2].byte_strides
        (-8,)
        """

    @property
    def T(self) -> Self:
        """The axes in reverse order."""
