"""Which of many regions of an array share an index, or a chunk of its store."""

from __future__ import annotations

from itertools import chain, combinations_with_replacement, islice
from math import gcd, prod
from struct import pack
from typing import Any, Callable, Iterable, Iterator, NamedTuple, Optional

from . import _native as native
from ._boxes import Intervals, Pair, groups_of, pairs_of
from ._chunks import Chunks
from ._errors import LayoutError, of_one
from ._keys import Elems
from ._numbers import LIMIT, Lens, Numbers, entries, flag
from ._regions import (
    MAX_PARTS,
    Blocks,
    Part,
    at_position,
    listed_keys,
    parts_of_slices,
    picks_of,
    picks_of_elems,
    read_plan,
    read_store,
)

SLICE_WITH_END = pack("=ii", 0, 1)
"""What a slice with an end begins with, as an `nd_slice_elem`."""

PIECE = 500
"""How many parts of two lists are compared in one call, in which Python hears no signal."""

MOST_CUT = 4_000_000
"""Into so many parts of one number all parts are cut at most, which takes memory for each."""

Compare = Callable[[list[Part]], Iterator[Pair]]
"""Pairs of positions of parts that share a number on each axis, of a group whose steps differ."""


def first_conflict(
    shape: Numbers,
    regions: Iterable[Any],
    chunks: Optional[Chunks] = None,
    blocks: Optional[Blocks] = None,
    *,
    dims: Optional[Iterable[Any]] = None,
    max_parts: int = MAX_PARTS,
) -> Optional[Pair]:
    """Two of many regions of an array that conflict: their positions, the less first. `None` if no two do.

    Exact. It is any pair that conflicts, not the least one. Without `chunks` two regions conflict where they share an
    index; with `chunks`, where each has an index in the same chunk, so that two who write them race. `waves` groups
    the regions so that no two of a group conflict. `regions` is a list: a tuple of slices that may be one region of this
    shape is a `TypeError`.

    Regions are basic keys of NumPy: integers, slices, `...` and `None`. With `dims`, the names of all axes, a region
    may be a dict of an integer or a slice for a name, as xarray has them. Raises what `basic_key` does, of the first
    region with an error, and `ShapeError` where `chunks` hasn't one length for each axis, or one is 0, and for a name
    that isn't in `dims`. All regions are read before any two are compared.

    `chunks` has the length of a chunk along each axis, as Zarr's `chunks` and HDF5's have; a number stands for one
    axis, and -1 or `None` for the whole length of one, as in Dask. Where a Zarr array has `shards`, each of which is written as a whole,
    they are the chunks. An axis may also have a list of lengths that add up to its own, as Dask's `chunks` have.

    `blocks` has for each region the lengths of the blocks of what is written there, along each axis: of a Dask array its
    `chunks`. Dask writes each block on its own, so two blocks of one region that have an index in the same chunk conflict
    too: the pair is its position twice. Without `blocks`, or with `None` for a region, one writer writes the whole region.
    Raises `ShapeError` where `blocks` isn't as long as `regions`, or the blocks of a region don't make it up.

    Takes time n log n for each axis, for n parts which an axis sets apart, another each group of them, and so on, as
    tiles, rows and chunks are. Others take up to n times the logarithm of n, or of a length, to the power of the axes.
    Only where two steps above 1 along an axis differ, parts whose stretches overlap on each axis may be compared each
    with each. It can be interrupted.

    On an axis on which a region steps further than a chunk, by no multiple of its length, it touches chunks in up to
    chunk / gcd(step, chunk) progressions; each counts as a part. Past `max_parts` parts of all regions it raises
    `ShapeError` of the kind 'Undecided'.

    >>> halves = [slice(0, 3), slice(3, 6)]
    >>> first_conflict((6, 6), halves)
    >>> first_conflict((6, 6), halves, chunks=(2, 6))    # both write rows of chunk (1, 0)
    (0, 1)
    >>> first_conflict((6, 6), [(..., 0), (0, slice(1, 6)), (-1, slice(None, None, 2))])
    (0, 2)
    >>> first_conflict((6, 6), [{"x": 0}, {"y": slice(2, 4)}], dims=("y", "x"))
    (0, 1)
    >>> first_conflict((6, 6), halves, {"y": 2}, dims=("y", "x"))
    (0, 1)
    >>> first_conflict((6, 6), halves, (3, 6), blocks=[((3,), (6,)), ((2, 1), (6,))])    # rows 3, 4 and row 5
    (1, 1)
    >>> first_conflict(9, [slice(0, 4), slice(4, 9)], chunks=((4, 3, 2),)), first_conflict(9, [3, 4], chunks=4)
    (None, None)
    """
    if blocks is dims is None and max_parts is MAX_PARTS:
        found = _usual_conflict(shape, regions, chunks)
        if found is not None:
            return (0, 1) if found else None
    plan = read_plan(shape, regions, chunks, blocks, dims, max_parts)
    return (plan.alone, plan.alone) if plan.alone is not None else first_of(plan.axes, plan.parts)


def _usual_conflict(shape: Any, regions: Any, chunks: Any) -> Optional[bool]:
    """Whether two regions of a shape have an index in common, or where there are chunks one of these; `None` of unusual arguments."""
    is_list = type(regions) is list or type(regions) is tuple and tuple in map(type, regions)  # (else it may be one region)
    if not is_list or len(regions) != 2:
        return None
    first, second = regions
    return native.intersect(shape, first, second) if chunks is None else native.share_chunk(shape, first, second, chunks)


def first_intersection(shape: Numbers, slices: Iterable[Elems], clamp: bool = False) -> Optional[Pair]:
    """Two of many slices of one shape that share an index: their positions, the less first. `None` if no two do.

    Exact. It is any pair that shares one. Raises what `slice_view` does, of the first slice with an error, before any
    two are compared. Slices may come in any order; the time is that of `first_conflict`, and it can be interrupted.

    >>> first_intersection((2, 3), [[0, Slice()], [1, Slice()], [Slice(), 2]])
    (0, 2)
    >>> first_intersection((2, 3), [[0, Slice()], [1, Slice()]])
    """
    lens, clamp, parts = read_store(shape, None, None)[0], flag(clamp, "clamp"), list[Part]()
    for position, elems in enumerate(entries(slices, "slices", "slices")):
        parts += parts_of_slices(position, at_position("slice", position, picks_of_elems, lens, elems, clamp))
    return first_of(len(lens), parts)


def first_intersection_of_keys(shape: Numbers, keys: Iterable[Any]) -> Optional[Pair]:
    """`first_intersection` of slices by NumPy's keys."""
    lens, parts, position = read_store(shape, None, None)[0], list[Part](), 0
    listed = listed_keys(keys, len(lens), "key")
    try:
        for position, key in enumerate(listed):
            parts += parts_of_slices(position, picks_of(lens, key))
    except (LayoutError, TypeError) as error:
        raise of_one("slice", position, error) from None
    return first_of(len(lens), parts)


def first_of(axes: int, parts: list[Part]) -> Optional[Pair]:
    """The positions of two parts that share a number on each axis, the less first."""
    pair = next(conflicts_of(axes, parts, _first_compared), None)
    return None if pair is None else (min(pair), max(pair))


# ---- Parts that conflict


def conflicts_of(axes: int, parts: list[Part], compare: Compare) -> Iterator[Pair]:
    """The positions of each two parts that share a number on each axis, some of them more than once."""
    steps = _steps(axes, parts)
    stepped = [(axis, gcd(*along)) for axis, along in enumerate(steps) if gcd(*along) > 1]
    for axis, unit in stepped:
        parts = _unwrapped(parts, axis, unit)
    along_axes = [_stretches(parts, axis) for axis in range(axes)]
    along_axes += [_remainders(parts, axis, unit) for axis, unit in stepped]
    are_boxes = max(map(len, steps), default=0) < 2
    for group in groups_of(along_axes, list(range(len(parts)))):
        if are_boxes:
            yield from ((parts[one][0], parts[other][0]) for one, other in pairs_of(along_axes, group))
            continue
        some = [parts[place] for place in group]
        differ = max(map(len, _steps(axes, some))) > 1
        yield from compare(some) if differ else conflicts_of(axes, some, compare)


def _steps(dimensions: int, parts: list[Part]) -> list[set[int]]:
    """The steps above 1 along each axis."""
    return [{ranges[axis].step for _, ranges in parts if len(ranges[axis]) > 1} - {1} for axis in range(dimensions)]


def _stretches(parts: list[Part], axis: int) -> Intervals:
    """From the first number of each part to the last."""
    return Intervals([ranges[axis][0] for _, ranges in parts], [ranges[axis][-1] for _, ranges in parts])


# With one step above 1 along an axis, two ranges share a number if and only if both their intervals share one and their
# remainders by the step do. With more steps, all that have a number in common have it by their greatest divisor.


def _remainders(parts: list[Part], axis: int, step: int) -> Intervals:
    """The remainders of the numbers by a step: all, one, or those of a short range."""
    ranges = [ranges[axis] for _, ranges in parts]
    covers = [numbers.step == 1 and len(numbers) >= step for numbers in ranges]
    lows = [0 if all_of_them else numbers[0] % step for numbers, all_of_them in zip(ranges, covers)]
    return Intervals(lows, [step - 1 if all_of_them else numbers[-1] % step for numbers, all_of_them in zip(ranges, covers)])


def _unwrapped(parts: list[Part], axis: int, step: int) -> list[Part]:
    """The same parts, with two for each whose remainders along an axis begin again: they have no least one to last."""
    found: list[Part] = []
    for position, ranges in parts:
        numbers = ranges[axis]
        cut = numbers[-1] // step * step
        if numbers[0] < cut and numbers.step == 1 and len(numbers) < step:
            halves = range(numbers[0], cut), range(cut, numbers[-1] + 1)
            found += [(position, (*ranges[:axis], half, *ranges[axis + 1 :])) for half in halves]
        else:
            found.append((position, ranges))
    return found


# With several steps above 1, each part of a group is compared with each by the library.


class _Piece(NamedTuple):
    """Some parts as the library takes them, and the stretch that they cover on the axis of their order."""

    positions: list[int]
    packed: bytes
    first: int
    last: int


def _first_compared(parts: list[Part]) -> Iterator[Pair]:
    """The positions of some two parts that share a number on each axis.

    They are compared in their order along the axis that comes first: there the most begin apart.
    """
    dimensions = range(len(parts[0][1]))
    axes = sorted(dimensions, key=lambda axis: -len({ranges[axis].start for _, ranges in parts}))
    shape = tuple([1 + max(ranges[axis][-1] for _, ranges in parts) for axis in axes])
    in_order = sorted(parts, key=lambda part: part[1][axes[0]].start)
    pieces = [_piece(axes, in_order[at : at + PIECE]) for at in range(0, len(parts), PIECE)]
    pairs = (_pair_of(shape, one, other) for one, other in combinations_with_replacement(pieces, 2))
    return (pair for pair in pairs if pair is not None)


def each_compared(parts: list[Part]) -> Iterator[Pair]:
    """The positions of each two parts that share a number on each axis, some of them more than once.

    Each two are compared whose stretches overlap. Where these are more than the numbers along the axes that have several
    steps, the numbers are taken one by one.
    """
    steps = _steps(len(parts[0][1]), parts)
    stepped = [axis for axis, along in enumerate(steps) if len(along) > 1]
    pairs = pairs_of([_stretches(parts, axis) for axis in range(len(steps))], list(range(len(parts))))
    most = _count_cut(parts, stepped)
    few = list(islice(pairs, most + 1)) if most <= MOST_CUT else []
    if len(few) > most:
        return conflicts_of(len(steps), _cut(parts, stepped), each_compared)
    return _of_pairs(parts, chain(few, pairs))


def _count_cut(parts: list[Part], axes: list[int]) -> int:
    """How many parts there are where those that step along some axes are cut into their numbers there."""
    return sum(prod([len(ranges[axis]) for axis in axes if ranges[axis].step > 1]) for _, ranges in parts)


def _cut(parts: list[Part], axes: list[int]) -> list[Part]:
    """The same parts, where those that step along some axes are cut into their numbers there."""
    for axis in axes:
        cut = [
            (position, (*ranges[:axis], number, *ranges[axis + 1 :]))
            for position, ranges in parts
            for number in (_numbers(ranges[axis]) if ranges[axis].step > 1 else (ranges[axis],))
        ]
        parts = cut
    return parts


def _numbers(numbers: range) -> Iterator[range]:
    return (range(number, number + 1) for number in numbers)


def _of_pairs(parts: list[Part], pairs: Iterable[Pair]) -> Iterator[Pair]:
    """The positions of those two of some parts that share a number on each axis."""
    axes = range(len(parts[0][1]))
    shape = tuple([1 + max(_stretches(parts, axis).highs) for axis in axes])
    packed = [b"".join(map(_elem, ranges)) for _, ranges in parts]
    for one, other in pairs:
        if native.share_index(shape, packed[one], packed[other]):
            yield parts[one][0], parts[other][0]


def _piece(axes: list[int], parts: list[Part]) -> _Piece:
    packed = b"".join([_elem(ranges[axis]) for _, ranges in parts for axis in axes])
    positions, stretches = [position for position, _ in parts], _stretches(parts, axes[0])
    return _Piece(positions, packed, stretches.lows[0], max(stretches.highs))


def _elem(numbers: range) -> bytes:
    """A range as an element of a slice. (a step above the limit leaves one number)"""
    return SLICE_WITH_END + pack("=qqq", numbers.start, numbers[-1] + 1, min(numbers.step, LIMIT))


def _pair_of(shape: Lens, one: _Piece, other: _Piece) -> Optional[Pair]:
    """The positions of two parts of a piece, or of two, that share a number on each axis."""
    if other.first > one.last:
        return None
    both = (one,) if one is other else (one, other)
    positions = [position for piece in both for position in piece.positions]
    pair = native.first_shared(shape, b"".join(piece.packed for piece in both), (len(shape),) * len(positions))
    return None if pair is None else (positions[pair[0]], positions[pair[1]])
