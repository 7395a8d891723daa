"""Why a call returned its error: the axis that is to blame, and the numbers.

The status of a call decides whether there is an error, and of which kind. What is found here is only its text. The
library says which rule is broken, and where, and has the sentence, which is that of the header for C. After it,
and a semicolon, stands what Python alone can do or has: the words of its calls, and numbers that 64 bits don't hold.
"""

from __future__ import annotations

from itertools import accumulate
from math import prod
from typing import Any, Callable, Iterable, Mapping, NamedTuple, Optional, Sequence

from . import _native as native
from ._errors import LayoutError, OutOfBoundsError, OutOfMemoryError, ShapeError, error_of_kind
from ._numbers import Lens, few, product, said, written

_KINDS = (
    "IncompatibleShape",
    "IncompatibleLayout",
    "RangeLimited",
    "OutOfBounds",
    "Unsupported",
    "Overflow",
    "BadArgument",
    "OutOfMemory",
)
"""The kinds of errors, by the status less 1."""

(NONE, COUNT, INDEX, BOUND, STEP, SIZE, SPAN, BYTES, LOWEST, HIGHEST, LENGTH, ALIAS, OTHER_SIZE, COPY, MISSING) = range(15)
COORDINATE, COMMON, STRETCH, EMPTY, AXIS, SAME_AXIS, SPLIT = range(15, 22)
"""The rules that arguments can break: `ND_RULE_NONE` and those after it."""

STRIDES, SLICE, COORDINATES, AXES, TARGET, WINDOW, CHUNK = range(1, 8)
"""Which list breaks `COUNT` or `EMPTY`: `ND_LIST_STRIDES` and those after it."""

IN_BYTES = 1
"""What places, spans and strides count, where it isn't elements: `ND_BYTES`."""


class ByteStrides(tuple[int, ...]):
    """Strides that count bytes."""

    __slots__ = ()


class Broken(NamedTuple):
    """The first rule that arguments break, and the numbers that break it: `nd_reason`."""

    status: int
    rule: int
    list: int
    unit: int
    axis: int
    number: int
    size: int
    other: int


def _find(name: str, *arguments: Any) -> Broken:
    """Which rule the arguments of a call break. Raises `MemoryError` where an allocation fails."""
    return Broken(*native.reason(name, *arguments))


class Reason(NamedTuple):
    """What `error_of_kind` takes."""

    kind: str
    text: str
    axis: Optional[int] = None
    numbers: Mapping[str, int] = {}


Find = Callable[..., Optional[Reason]]


def of_kind(kind: str, find: Callable[[], Optional[Reason]]) -> Optional[Reason]:
    """The reason of an error of a kind: none of another kind, and none where there is no memory to find it."""
    try:
        reason = find()
    except MemoryError:
        return None
    return reason if reason is not None and reason.kind == kind else None


_NAMES: Mapping[int, tuple[str, str, str]] = {
    INDEX: ("index", "length", ""),
    BOUND: ("bound", "length", ""),
    BYTES: ("", "span", "elem_size"),
    LOWEST: ("", "below", "start"),
    HIGHEST: ("", "above", "start"),
    LENGTH: ("", "highest", "length"),
    ALIAS: ("stride", "reach", ""),
    OTHER_SIZE: ("", "new_size", "size"),
    COPY: ("stride", "length", ""),
    MISSING: ("", "", "axes"),
    COORDINATE: ("", "index", "length"),
    COMMON: ("", "first", "second"),
    STRETCH: ("", "length", "target"),
    AXIS: ("", "axes", ""),
    SPLIT: ("", "length", "index"),
}
"""What a number, a size and the other size of a rule are."""

_COUNTED: Mapping[int, tuple[str, str, str]] = {
    STRIDES: ("", "strides", "lengths"),
    SLICE: ("", "elements", "axes"),
    COORDINATES: ("", "coordinates", "axes"),
    AXES: ("", "listed", "axes"),
    TARGET: ("", "target", "axes"),
    WINDOW: ("", "lengths", "axes"),
    CHUNK: ("", "lengths", "axes"),
}


def _told(broken: Broken, also: str = "", **numbers: int) -> Optional[Reason]:
    """The reason of what is broken, if anything is, with what else Python says, and has."""
    if broken.rule == NONE:
        return None
    names = _COUNTED[broken.list] if broken.rule == COUNT else _NAMES.get(broken.rule, ("", "", ""))
    fields = zip(names, (broken.number, broken.size, broken.other))
    found, text = {name: number for name, number in fields if name}, native.reason_text(broken)
    axis = broken.axis if text.startswith("axis ") else None
    return Reason(_KINDS[broken.status - 1], f"{text}; {also}" if also else text, axis, {**found, **numbers})


# ---- Errors


def error_of(status: int, text: str, finder: str, arguments: tuple[Any, ...]) -> LayoutError:
    """The error of a status, which alone decides on its kind, with what a function of this module finds of the arguments."""
    kind = _KINDS[status - 1] if 1 <= status <= len(_KINDS) else "BadArgument"
    find: Find = globals()[finder]
    reason = of_kind(kind, lambda: find(*arguments))
    return error_of_kind(kind, text.rpartition(": ")[2]) if reason is None else error_of_kind(*reason)


def no_room(places: int) -> LayoutError:
    return OutOfMemoryError("OutOfMemory", f"no memory for {said(places)} places", None, {"places": places})


def beside_itemsize(elem_size: int) -> LayoutError:
    """The error of a size of elements beside that of items, which they are."""
    return ShapeError("BadArgument", f"elem_size {said(elem_size)} beside an itemsize", None, {"elem_size": elem_size})


def order_beside_strides(order: Any) -> LayoutError:
    return ShapeError("BadArgument", f"the order {written(order)} beside strides, which say the order themselves")


def of_offset(shape: Lens, strides: Lens, itemsize: int, nbytes: int, offset: int, writable: bool) -> LayoutError:
    """The error of an offset outside of a buffer: what the library says of it, where it has 64 bits."""
    text = f"offset {said(offset)} lies outside of {said(nbytes)} bytes"
    known = OutOfBoundsError("OutOfBounds", text, None, {"offset": offset, "nbytes": nbytes})
    if not 0 <= offset < 2**64:
        return known
    try:
        reason = of_lay_over(shape, strides, itemsize, nbytes, offset, writable)
    except MemoryError:
        reason = None
    return error_of_kind(*reason) if reason else known


# ---- Layouts


_NO_END = 2**64 - 1
"""The length of a buffer that no layout leaves."""


def of_size(shape: Lens) -> Optional[Reason]:
    return of_layout(shape, (0,) * len(shape))


def of_layout(shape: Lens, strides: Lens) -> Optional[Reason]:
    return of_layout_start(shape, strides, 1, _NO_END, 0)


def of_layout_start(shape: Lens, strides: Lens, elem_size: int, length: int, writable: int) -> Optional[Reason]:
    lists = shape, strides
    broken = _find("layout_start", *lists, elem_size, length, 0)
    return _of_limits(broken, shape, strides) or (of_overlap(shape, strides) if writable else None)


def of_check_layout(
    start: int, shape: Lens, strides: Lens, elem_size: int, length: int, writable: int
) -> Optional[Reason]:
    lists = shape, strides
    broken = _find("check_layout", start, *lists, elem_size, length, 0)
    return _of_limits(broken, shape, strides) or (of_overlap(shape, strides) if writable else None)


def of_accepting(start: int, shape: Lens, strides: Lens, itemsize: int, length: int, writable: int, over: int) -> Optional[Reason]:
    return _of_byte_strides(of_check_layout(start, shape, strides, itemsize, length, writable), strides, itemsize if over else 1)


def of_accepting_start(shape: Lens, strides: Lens, itemsize: int, length: int, writable: int, over: int) -> Optional[Reason]:
    return _of_byte_strides(of_layout_start(shape, strides, itemsize, length, writable), strides, itemsize if over else 1)


def _of_byte_strides(reason: Optional[Reason], strides: Lens, itemsize: int) -> Optional[Reason]:
    """The reason of a layout that leaves its buffer, which says so where its strides may count bytes."""
    if reason is None or reason.kind != "OutOfBounds" or itemsize == 1 or any(stride % itemsize for stride in strides):
        return reason
    text = f"{reason.text}; strides count elements here: `element_strides(strides, {itemsize})` makes them of bytes"
    return reason._replace(text=text)


def _of_limits(broken: Broken, shape: Lens, strides: Lens) -> Optional[Reason]:
    """Of a layout that is only read."""
    broken = _counted(broken, strides)
    if broken.rule == SIZE:
        return _past_size(broken, shape)
    if broken.rule == SPAN:
        span = sum(_reaches(shape, strides))
        return _told(broken, f"it is {said(span)}", span=span)
    if broken.rule == LOWEST:
        return _told(broken, lowest=broken.other - broken.size)
    return _told(broken, highest=broken.other + broken.size) if broken.rule == HIGHEST else _told(broken)


def _counted(broken: Broken, strides: Lens) -> Broken:
    """What is broken, which counts bytes where strides do."""
    return broken._replace(unit=IN_BYTES) if isinstance(strides, ByteStrides) else broken


def _past_size(broken: Broken, lengths: Iterable[int]) -> Optional[Reason]:
    """The reason of a shape that is too large."""
    size = product([length for length in lengths if length])
    return _told(broken, f"it is {said(size)}", size=size)


def _reaches(shape: Lens, strides: Lens) -> list[int]:
    return [max(length - 1, 0) * abs(stride) for length, stride in zip(shape, strides)]


def of_overlap(shape: Lens, strides: Lens) -> Optional[Reason]:
    """Of a layout within the limits."""
    axes, lens, steps = _without_ones(shape, strides)
    broken = _find("layout_start", lens, steps, 1, _NO_END, 1)
    if broken.rule != ALIAS:
        return None
    broken = _counted(broken._replace(axis=axes[broken.axis]), strides)
    return _told(broken, "without writable=True it is only to be read")


def _without_ones(shape: Lens, strides: Lens) -> tuple[Lens, Lens, Lens]:
    """The axes of a length other than 1, with their lengths and strides: the others break no rule of these.

    They are at most 62 where none is empty. The library's reasons take the square of the axes, which may be many more.
    """
    axes = tuple([axis for axis, length in enumerate(shape) if length != 1])
    return axes, tuple([shape[axis] for axis in axes]), tuple([strides[axis] for axis in axes])


def of_array(shape: Lens, strides: Lens, itemsize: int) -> Optional[Reason]:
    """Of the bytes of an array: of the array itself where there are none, or not one stride for each axis."""
    if 0 in shape or len(shape) != len(strides):
        return of_layout(shape, ByteStrides(strides))
    lens, steps = (*shape, itemsize), ByteStrides((*strides, 1))
    broken = _find("layout_start", lens, steps, 1, _NO_END, 0)
    if broken.rule == SIZE:
        size = product(lens)
        return _told(broken, f"it is {said(size)}, in bytes", size=size, itemsize=itemsize)
    return _of_limits(broken, lens, steps)


def of_lay_over(
    shape: Lens, strides: Lens, itemsize: int, nbytes: int, offset: Optional[int], writable: bool
) -> Optional[Reason]:
    """Of the bytes of an array over a buffer."""
    return (
        of_array(shape, strides, itemsize)
        or _of_bytes(shape, strides, itemsize, nbytes, offset)
        or (of_overlap((*shape, itemsize), ByteStrides((*strides, 1))) if writable else None)
    )


def _of_bytes(shape: Lens, strides: Lens, itemsize: int, nbytes: int, offset: Optional[int]) -> Optional[Reason]:
    """Of an array whose bytes are within the limits."""
    lens, steps = (shape, strides) if 0 in shape else ((*shape, itemsize), (*strides, 1))
    lists, sizes = (lens, steps), (1, nbytes)
    if offset is None:
        broken = _find("layout_start", *lists, *sizes, 0)
        needed = broken.size + (0 not in lens)
        return _told(broken._replace(unit=IN_BYTES), f"the array needs {said(needed)} bytes", needed=needed, nbytes=nbytes)
    broken = _find("check_layout", offset, *lists, *sizes, 0)
    broken = broken._replace(unit=IN_BYTES)
    lowest = offset - sum(reach for reach, stride in zip(_reaches(lens, steps), steps) if stride < 0)
    end = lowest + sum(_reaches(lens, steps)) + (0 not in lens)
    also = f"the array at offset {said(offset)} needs bytes {said(lowest)} to {said(end - 1)}"
    return _told(broken, also, offset=offset, lowest=lowest, end=end, nbytes=nbytes)


# ---- Indices


def of_index(shape: Lens, index: Lens) -> Optional[Reason]:
    return _told(_find("index", shape, index))


def of_place(start: int, shape: Lens, strides: Lens, index: Lens) -> Optional[Reason]:
    return of_places(start, shape, strides) or of_index(shape, index)


def of_places(start: int, shape: Lens, strides: Lens) -> Optional[Reason]:
    return of_check_layout(start, shape, strides, 1, _NO_END, 0)



# ---- Slices


def of_slice(start: int, shape: Lens, strides: Lens, elements: Sequence[int], clamp: int) -> Optional[Reason]:
    return of_places(start, shape, strides) or _of_elements(shape, elements, clamp)


def of_slices_intersect(shape: Lens, first: Sequence[int], second: Sequence[int], clamp: int) -> Optional[Reason]:
    return of_size(shape) or _of_elements(shape, first, clamp) or _of_elements(shape, second, clamp)


def of_picked(shape: Lens, elements: Sequence[int], clamp: int) -> Optional[Reason]:
    return of_size(shape) or _of_elements(shape, elements, clamp)


def _of_elements(shape: Lens, elements: Sequence[int], clamp: int) -> Optional[Reason]:
    broken = _find("slice", shape, tuple(elements), clamp)
    if broken.rule == COUNT:
        return _told(broken, "`basic_key` adds what is left out")
    if broken.rule == BOUND:
        return _told(broken, "clamp=True moves it to the end, as NumPy does")
    return _told(broken, step=0) if broken.rule == STEP else _told(broken)


# ---- Shapes


def of_co_broadcast(first: Lens, second: Lens) -> Optional[Reason]:
    return _told(_find("co_broadcast", first, second))


def of_broadcast(shape: Lens, strides: Lens, target: Lens) -> Optional[Reason]:
    return of_layout(shape, strides) or _of_target(shape, target)


def _of_target(shape: Lens, target: Lens) -> Optional[Reason]:
    broken = _find("broadcast", shape, target)
    return _past_size(broken, target) if broken.rule == SIZE else _told(broken)


def of_merge(shape: Lens, strides: Lens, take: int, into: int) -> Optional[Reason]:
    return of_layout(shape, strides) or _told(_find("merge_axes", shape, take, into))


def of_permuted_axes(shape: Lens, strides: Lens, axes: Lens) -> Optional[Reason]:
    return of_layout(shape, strides) or _of_axes(shape, axes)


def _of_axes(shape: Lens, axes: Lens) -> Optional[Reason]:
    broken = _find("permuted_axes", shape, axes)
    return _told(broken, f"listed are {written(axes)}" if broken.rule == MISSING else "")


# ---- Blocks and parts


def of_windows(shape: Lens, strides: Lens, window: Lens) -> Optional[Reason]:
    found = of_layout(shape, strides)
    if found:
        return found
    moves = (max(length - block + 1, 0) for length, block in zip(shape, window))
    return _of_blocks(_find("windows", shape, window), moves, window)


def of_exact_chunks(shape: Lens, strides: Lens, chunk: Lens) -> Optional[Reason]:
    found = of_layout(shape, strides)
    if found:
        return found
    broken = _find("exact_chunks", shape, chunk)
    return _of_blocks(broken, (length // block for length, block in zip(shape, chunk) if block), chunk)


def _of_blocks(broken: Broken, counts: Iterable[int], block: Lens) -> Optional[Reason]:
    return _past_size(broken, (*counts, *block)) if broken.rule == SIZE else _of_block(broken)


def _of_block(broken: Broken) -> Optional[Reason]:
    return _told(broken, length=0) if broken.rule == EMPTY else _told(broken)


def of_chunk(shape: Lens, chunk: Lens) -> Optional[Reason]:
    """Of the chunks of a store, which may have any count of indices."""
    broken = _find("exact_chunks", shape, chunk)
    return None if broken.rule == SIZE else _of_block(broken)


def of_split_at(start: int, shape: Lens, strides: Lens, axis: int, index: int) -> Optional[Reason]:
    found = of_places(start, shape, strides)
    return found or _told(_find("split_at", shape, axis, index))


# ---- Reshapes


def of_reshape(shape: Lens, strides: Lens, new_shape: Lens, order: int) -> Optional[Reason]:
    return of_layout(shape, strides) or of_size(new_shape) or _of_new_shape(shape, strides, new_shape, order)


def _of_new_shape(shape: Lens, strides: Lens, new_shape: Lens, order: int) -> Optional[Reason]:
    """Of a layout and a shape within the limits."""
    axes, lens, steps = _without_ones(shape, strides)
    broken = _find("reshape", lens, steps, new_shape, order)
    if broken.rule == OTHER_SIZE:
        return _told(broken, f"{few(shape)} can't become {few(new_shape)}")
    if broken.rule != COPY:
        return None
    broken = _counted(broken._replace(axis=axes[broken.axis]), strides)
    size, new_size = prod(shape), prod(new_shape)
    if size != new_size:
        also = f"shape {few(shape)} can't become {few(new_shape)} by a copy either: size {said(size)} isn't {said(new_size)}"
        return _told(broken, also, size=size, new_size=new_size)
    also = f"shape {few(shape)} with strides {few(strides)} can't become {few(new_shape)} in order {'CF'[order]!r} without a copy"
    other = _find("reshape", lens, steps, new_shape, 1 - order)
    return _told(broken, f"{also}, and order={'FC'[order]!r} can" if other.rule == NONE else also)
