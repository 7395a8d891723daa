"""Regions of one array, as many writers have them: the indices that each takes, and the chunks that it touches."""

from __future__ import annotations

from collections.abc import Hashable, Mapping
from itertools import accumulate, count, product, repeat
from math import prod
from numbers import Integral
from typing import Any, Callable, Iterable, NamedTuple, Optional, Sequence, TypeVar

from ._chunks import Chunking, Chunks, Even, block_length, read_chunks
from ._errors import LayoutError, ShapeError, of_one
from ._keys import Elem, Elems, Slice, basic_key, lengths_of
from ._native import default_strides, picked, slice_view
from ._numbers import LIMIT, Lens, Numbers, entries, limit, listing, said, written

MAX_PARTS = 1_000_000
"""How many parts all regions together may have, where no other number is given."""

Blocks = Iterable[Optional[Iterable[Numbers]]]
"""For each region the lengths of the blocks along each axis of what is written there, or `None` for one block."""

Part = tuple[int, tuple[range, ...]]
"""The position of a region, and along each axis the numbers of its indices, or of some of its chunks: they ascend."""


_Found = TypeVar("_Found")


class Plan(NamedTuple):
    """All parts of all regions, how many axes there are, the indices that each region takes along them, and the first
    region two of whose blocks have an index in the same chunk.
    """

    axes: int
    picks: list[list[range]]
    parts: list[Part]
    alone: Optional[int]


def read_plan(
    shape: Numbers,
    regions: Iterable[Any],
    chunks: Optional[Chunks],
    blocks: Optional[Blocks],
    dims: Optional[Iterable[Any]],
    max_parts: int,
) -> Plan:
    """Reads all regions. Raises the error of the first one that has one."""
    lens, chunk, names = read_store(shape, chunks, dims)
    parts, max_parts = list[Part](), limit(max_parts, "max_parts")
    alone: Optional[int] = None
    of_regions: list[list[range]] = []
    for position, (region, lengths) in enumerate(_with_blocks(listed_keys(regions, len(lens), "region"), blocks)):
        key = region if type(region) is tuple or type(region) is slice else at_position("region", position, key_of, region, names)
        picks = at_position("region", position, picks_of, lens, key)
        of_regions.append(picks)
        is_one = chunks is None and len(parts) < max_parts
        parts += parts_of_slices(position, picks) if is_one else _parts_of(position, picks, chunk, len(parts), max_parts)
        if lengths is not None and at_position("region", position, _blocks_conflict, lens, key, picks, chunk, lengths):
            alone = position if alone is None else alone
    return Plan(len(lens), of_regions, parts, alone)


def read_store(
    shape: Numbers, chunks: Optional[Chunks], dims: Optional[Iterable[Any]]
) -> tuple[Lens, Sequence[Chunking], Optional[Sequence[Any]]]:
    """The shape, the chunks along each axis and the names of the axes."""
    lens = lengths_of(shape, "length")
    default_strides(lens)  # (which refuses a size above the limit)
    names = _names_of(len(lens), dims)
    if isinstance(chunks, Mapping):
        chunks = _chunks_by_names(chunks, names)
    return lens, (Even(1),) * len(lens) if chunks is None else read_chunks(lens, chunks), names


def _chunks_by_names(chunks: Mapping[Any, Any], names: Optional[Sequence[Any]]) -> Chunks:
    """The chunks along each axis of those by names, as xarray has them: of a name that is left out the whole axis."""
    if names is None:
        raise TypeError(f"chunk: {written(chunks)} has names: dims= has those of all axes in their order")
    unknown = next((name for name in chunks if name not in names), None)
    if unknown is not None:
        raise ShapeError("IncompatibleShape", f"chunk: {written(unknown)} is none of the dims {written(tuple(names))}")
    return tuple([chunks.get(name, -1) for name in names])


def _names_of(axes: int, dims: Optional[Iterable[Any]]) -> Optional[Sequence[Any]]:
    """The names of the axes, each once."""
    if dims is None:
        return None
    names = (dims,) if isinstance(dims, str) else entries(dims, "dims", "names")
    for name in names:
        if not isinstance(name, Hashable):
            raise TypeError(f"dims: {written(name)} is no name of an axis")
    if len(names) != axes:
        text = f"dims has {len(names)} names for {axes} axes"
        raise ShapeError("IncompatibleShape", text, None, {"dims": len(names), "axes": axes})
    again = next((axis for axis, name in enumerate(names) if name in names[:axis]), None)
    if again is not None:
        raise ShapeError("BadArgument", f"axis {again}: the name {written(names[again])} is there twice in dims", again)
    return names


def at_position(name: str, position: int, call: Callable[..., _Found], *arguments: Any) -> _Found:
    """What a call returns for one of many, or its error, which says which one."""
    try:
        return call(*arguments)
    except (LayoutError, TypeError) as error:
        raise of_one(name, position, error) from None


def key_of(region: Any, names: Optional[Sequence[Any]]) -> Any:
    """A region as a key of NumPy. One by names has an integer or a slice for each, and whole axes for what it leaves out."""
    if not isinstance(region, Mapping):
        return region
    if names is None:
        raise TypeError(f"dims= is missing, the names of all axes in their order: {written(region)} has names")
    unknown = next((name for name in region if name not in names), None)
    if unknown is not None:
        raise ShapeError("IncompatibleShape", f"{written(unknown)} is none of the dims {written(tuple(names))}")
    for axis, name in enumerate(names):
        if name in region and (region[name] is None or region[name] is Ellipsis):
            raise TypeError(f"axis {axis}: {written(region[name])} is no integer or slice")
    return tuple([region.get(name, slice(None)) for name in names])


_ENTRIES = (slice, Slice, Integral, type(None), type(...))
"""What a key of NumPy has for an axis, for a new one, and for all others."""


def listed_keys(keys: Iterable[Any], axes: int, name: str) -> tuple[Any, ...]:
    """Many keys of NumPy. Raises `TypeError` for a tuple of their entries that would be one key of so many axes."""
    if isinstance(keys, tuple) and len(keys) > 1 and all(isinstance(entry, _ENTRIES) for entry in keys):
        if isinstance(keys, Slice) or sum(entry is not None and entry is not Ellipsis for entry in keys) <= axes:
            text = f"{written(keys)} may be one {name} or {len(keys)}; a list says which, as [{name}]"
            raise TypeError(f"{name}s: {text}")
    return entries(keys, f"{name}s", f"{name}s")


def _with_blocks(listed: Sequence[Any], blocks: Optional[Iterable[Any]]) -> Iterable[tuple[Any, Any]]:
    """Each region with its blocks, or with `None`."""
    if blocks is None:
        return zip(listed, repeat(None))
    of_regions = entries(blocks, "blocks", "blocks")
    if len(listed) != len(of_regions):
        numbers = {"regions": len(listed), "blocks": len(of_regions)}
        text = f"{len(of_regions)} lists of blocks for {len(listed)} regions"
        raise ShapeError("IncompatibleShape", text, None, numbers)
    return zip(listed, of_regions)


# ---- The indices that a region takes


def picks_of(shape: Lens, key: Any) -> list[range]:
    """The indices that a key of NumPy takes along each axis. Slices and integers, the usual keys, need no other call."""
    entries = key if type(key) is tuple else (key,)
    given = entries[:-1] if entries and entries[-1] is Ellipsis else entries
    if len(given) > len(shape):
        return _picks_of_any(shape, key)
    found = []
    try:
        for length, entry in zip(shape, given):
            if type(entry) is slice:
                found.append(range(length)[entry])
            elif type(entry) is int and 0 <= entry < length:
                found.append(range(entry, entry + 1))
            elif _is_integer(entry) and -length <= entry < length:
                found.append(range(length)[entry:][:1])
            else:
                return _picks_of_any(shape, key)
    except (TypeError, ValueError):  # (of a slice whose bounds are no numbers, or whose step is 0)
        return _picks_of_any(shape, key)
    return [*found, *map(range, shape[len(given) :])]


def _is_integer(entry: Any) -> bool:
    return type(entry) is int or isinstance(entry, Integral) and not isinstance(entry, bool)


def _picks_of_any(shape: Lens, key: Any) -> list[range]:
    """`picks_of` of any key, or its error."""
    return _picks_of_checked(shape, basic_key(shape, key), False)


def _picks_of_checked(shape: Lens, elems: Sequence[Elem], clamp: bool) -> list[range]:
    """The indices that a slice takes along each axis, or its error."""
    picked(shape, elems, clamp)  # (which refuses what leaves its axis)
    along = zip(shape, [elem for elem in elems if elem is not None])
    return [_picks_of_axis(length, elem, clamp) for length, elem in along]


def _picks_of_axis(length: int, elem: Elem, clamp: bool) -> range:
    """The indices that an element of a slice takes of one axis."""
    start, lens, strides = slice_view(0, (length,), (1,), elem if isinstance(elem, Slice) else (elem,), clamp)
    count, step = (lens[0], strides[0] or 1) if lens else (1, 1)
    return range(start, start + count * step, step)


def picks_of_elems(shape: Lens, elems: Elems, clamp: bool) -> list[range]:
    """The indices that a slice takes along each axis. Python's own integers within their bounds need no other call."""
    listed = (elems,) if isinstance(elems, Slice) else entries(elems, "elems", "elements of a slice")
    of_axes = [elem for elem in listed if elem is not None]
    found = [_usual_picks(length, elem) for length, elem in zip(shape, of_axes)]
    if None in found or len(of_axes) != len(shape):
        return _picks_of_checked(shape, listed, clamp)
    return found  # type: ignore[return-value]


def _usual_picks(length: int, elem: Elem) -> Optional[range]:
    """The indices of one axis that an element takes, where it has integers of Python within the bounds."""
    if type(elem) is int:
        return range(elem, elem + 1) if 0 <= elem < length else None
    if type(elem) is not Slice:
        return None
    start, end, step = elem
    if end is None:
        end = length
    if not type(start) is type(end) is type(step) is int or step == 0 or not -LIMIT <= step <= LIMIT:
        return None
    if not (-length <= start <= length and -length <= end <= length):
        return None
    return range(start + length * (start < 0), end + length * (end < 0))[::step]


def parts_of_slices(position: int, picks: list[range]) -> Iterable[Part]:
    """The part that a slice takes, where it has an index."""
    return ((position, tuple([numbers if numbers.step > 0 else numbers[::-1] for numbers in picks])),) if all(picks) else ()


# ---- The chunks that a region touches


def _parts_of(
    position: int, picks: list[range], chunk: Sequence[Chunking], others: int, max_parts: int
) -> Iterable[Part]:
    """The parts of a region. Raises `ShapeError` where there are more than `max_parts` with the others."""
    counts = [along.count(picked) for picked, along in zip(picks, chunk)]
    if others + prod(counts) > max_parts:
        text = (
            f"the regions up to {position} have more than max_parts={said(max_parts)} parts, so nothing was decided; "
            "a greater max_parts takes more memory"
        )
        raise ShapeError("Undecided", text, None, {"region": position, "max_parts": max_parts})
    return zip(repeat(position), product(*[along.touched(picked) for picked, along in zip(picks, chunk)]))


def _blocks_conflict(
    shape: Lens, key: Any, picks: list[range], chunk: Sequence[Chunking], blocks: Iterable[Numbers]
) -> bool:
    """Whether two blocks of a part have an index in the same chunk."""
    axes, lengths = _axes_of_part(shape, key), [listing(numbers) for numbers in entries(blocks, "blocks", "axes")]
    if len(lengths) != len(axes):
        numbers = {"blocks": len(lengths), "axes": len(axes)}
        raise ShapeError("IncompatibleShape", f"blocks of {len(lengths)} axes for {len(axes)}", None, numbers)
    new_axis: tuple[range, Chunking] = range(1), Even(1)
    along = [new_axis if axis is None else (picks[axis], chunk[axis]) for axis in axes]
    shared = [_share_a_chunk(at, *pair, numbers) for at, (pair, numbers) in enumerate(zip(along, lengths))]
    return any(shared) and all(picks)


def _axes_of_part(shape: Lens, key: Any) -> list[Optional[int]]:
    """Which axis of the array each axis of a part is: `None` for a new one."""
    numbers = count()
    axes = [(elem, None if elem is None else next(numbers)) for elem in basic_key(shape, key)]
    return [axis for elem, axis in axes if elem is None or isinstance(elem, Slice)]


def _share_a_chunk(axis: int, picks: range, chunk: Chunking, lengths: Iterable[Any]) -> bool:
    """Whether two blocks along an axis have an index in the same chunk: then two that follow each other have."""
    ends = tuple(accumulate(block_length(axis, length) for length in lengths))
    total = ends[-1] if ends else 0
    if total != len(picks):
        text = f"axis {axis}: the blocks have {said(total)} of {said(len(picks))} indices"
        raise ShapeError("IncompatibleShape", text, axis, {"blocks": total, "length": len(picks)})
    return any(chunk.number(picks[end - 1]) == chunk.number(picks[end]) for end in ends if 0 < end < total)
