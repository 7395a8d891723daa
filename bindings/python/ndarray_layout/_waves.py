"""Regions of one array in waves: those of a wave may be written at once. And the chunks that a region touches."""

from __future__ import annotations

from collections.abc import Mapping
from itertools import chain, count, groupby
from types import EllipsisType
from typing import Any, Iterable, NamedTuple, Optional, Sequence, SupportsIndex, TypeVar, Union, overload

from ._chunks import Chunking, Chunks
from ._conflicts import conflicts_of, each_compared
from ._errors import ShapeError
from ._numbers import Lens, Numbers, written
from ._regions import MAX_PARTS, Blocks, Part, Plan, key_of, parts_of_slices, picks_of, read_plan, read_store


_Name = TypeVar("_Name")

Key = Union[SupportsIndex, slice, EllipsisType, None, tuple[Any, ...]]
"""A region as NumPy writes it."""


def waves(
    shape: Numbers,
    regions: Iterable[Any],
    chunks: Optional[Chunks] = None,
    blocks: Optional[Blocks] = None,
    *,
    dims: Optional[Iterable[Any]] = None,
    max_parts: int = MAX_PARTS,
) -> list[list[int]]:
    """The positions of all regions in lists. Written list after list, and those of one list at once, the regions leave what
    they would leave if written one after another, in the order given.

    No two regions of a list conflict. When two do is what `first_conflict` says; the arguments are its own. A region that
    shares an index with an earlier one is in a later list than that. Regions that share a chunk alone come in any order.
    Each region is in one list, and each list ascends.

    Without `chunks` there are as few lists as can be: as many as the longest chain has regions, of which each shares an
    index with the next, and comes before it in the order given. With `chunks` there are as many lists as some chunk has
    regions, where these are intervals along one axis that share no index. Of other regions there may be more lists than are
    needed. Each region conflicts with one of the list before its own.

    Raises what `first_conflict` does, and `ShapeError` of the kind 'Unsupported' where two blocks of one region have an
    index in the same chunk: no order of the regions keeps these apart.

    Takes the time of `first_conflict`, and time and memory for each two regions that conflict. Regions that take the
    same indices, or touch the same chunks, count as one. Where two steps above 1 along an axis differ, the indices
    or chunks along it are taken one by one, or each two regions are compared whose stretches overlap on each axis: what is
    less, and the second from 4,000,000 on. It can be interrupted.

    >>> waves((6, 6), [slice(0, 3), slice(3, 6), slice(2, 4)])
    [[0, 1], [2]]
    >>> waves((6, 6), [slice(2, 6), slice(0, 3)])    # row 2 is the second one's
    [[0], [1]]
    >>> waves((6, 6), [slice(0, 3), slice(3, 6), slice(0, 1)], chunks=(2, 6))
    [[0], [1, 2]]
    """
    plan = read_plan(shape, regions, chunks, blocks, dims, max_parts)
    if plan.alone is not None:
        text = f"region {plan.alone}: two of its blocks write to one chunk, so it is in no wave; its blocks may be rechunked"
        raise ShapeError("Unsupported", text, None, {"region": plan.alone})
    wave_of = _waves_of(plan, chunks is not None)
    found: list[list[int]] = [[] for _ in range(max(wave_of, default=-1) + 1)]
    for position, number in enumerate(wave_of):
        found[number].append(position)
    return found


class _Kinds(NamedTuple):
    """Regions that have the same parts, as one kind: the kind of each region, and of each kind where it begins and the
    kinds that share a number with it, itself among them.
    """

    of: list[int]
    begins: list[list[int]]
    near: list[set[int]]


def _kinds_of(axes: int, regions: int, parts: Iterable[Part]) -> _Kinds:
    parts_of: list[list[tuple[range, ...]]] = [[] for _ in range(regions)]
    for position, ranges in parts:
        parts_of[position].append(ranges)
    numbers: dict[tuple[tuple[range, ...], ...], int] = {}
    of = [numbers.setdefault(tuple(own), len(numbers)) for own in parts_of]
    near = [{number} if own else set[int]() for own, number in numbers.items()]
    each: list[Part] = [(number, ranges) for own, number in numbers.items() for ranges in own]
    for one, other in conflicts_of(axes, each, each_compared):
        near[one].add(other)
        near[other].add(one)
    return _Kinds(of, [[run[0] for run in own[0]] if own else [] for own in numbers], near)


def _waves_of(plan: Plan, has_chunks: bool) -> list[int]:
    """The number of the wave of each region."""
    indices = (part for position, picks in enumerate(plan.picks) for part in parts_of_slices(position, picks))
    takes = _kinds_of(plan.axes, len(plan.picks), indices)
    last = [-1] * len(takes.near)
    waves = [0] * len(plan.picks)
    for position, kind in enumerate(takes.of):
        waves[position] = last[kind] = _after(last, takes.near[kind])
    return _apart(takes, _kinds_of(plan.axes, len(plan.picks), plan.parts), waves) if has_chunks else waves


def _after(last: list[int], near: Iterable[int]) -> int:
    """The first wave after the last ones of some kinds."""
    return max([last[kind] for kind in near], default=-1) + 1


def _apart(takes: _Kinds, touches: _Kinds, waves: list[int]) -> list[int]:
    """The same, with regions apart that touch one chunk. They come wave by wave, and in a wave in the order of where they
    begin. Each is in the first wave after the regions that it has to follow which has none that touches one of its chunks.
    """
    keys = [(wave, touches.begins[kind], kind) for wave, kind in zip(waves, touches.of)]
    order = sorted([position for position, kind in enumerate(touches.of) if touches.near[kind]], key=keys.__getitem__)
    last, taken = [-1] * len(takes.near), [set[int]() for _ in touches.near]
    for (_, _, kind), group in groupby(order, keys.__getitem__):
        others, number = set[int]().union(*[taken[other] for other in touches.near[kind]]), -1
        for first, position in sorted([(_after(last, takes.near[takes.of[position]]), position) for position in group]):
            number = next(free for free in count(max(first, number + 1)) if free not in others)
            waves[position] = last[takes.of[position]] = number
            taken[kind].add(number)
    return waves


# ---- The chunks of one region


def chunks_of(
    shape: Numbers, region: Any, chunks: Chunks, *, dims: Optional[Iterable[Any]] = None
) -> tuple[Sequence[int], ...]:
    """The numbers of the chunks that a region touches, along each axis: their product has each of these chunks.

    A `range` where the numbers are evenly apart, else a tuple; they ascend. The arguments are those of `first_conflict`.

    >>> chunks_of((8, 6), (slice(3, 7), 5), chunks=(2, 3))
    (range(1, 4), range(1, 2))
    >>> chunks_of(9, slice(None, None, 4), chunks=((1, 2, 1, 5),))
    (range(0, 4, 3),)
    >>> chunks_of(9, slice(None, None, 4), chunks=((1, 2, 1, 1, 4),)), chunks_of((), (), ())
    (((0, 3, 4),), ())
    """
    _, picks, chunk, _ = _read(shape, region, chunks, dims)
    return tuple([_numbers(along.touched(run)) for along, run in zip(chunk, picks)])


def _numbers(ranges: list[range]) -> Sequence[int]:
    if len(ranges) < 2:
        return ranges[0] if ranges else range(0)
    numbers = sorted(chain(*ranges))
    evenly = range(numbers[0], numbers[-1] + 1, numbers[1] - numbers[0])
    return evenly if len(evenly) == len(numbers) and [*evenly] == numbers else tuple(numbers)


@overload
def aligned(
    shape: Numbers, region: Mapping[_Name, Any], chunks: Chunks, *, dims: Iterable[_Name]
) -> dict[_Name, slice]:
    ...


@overload
def aligned(
    shape: Numbers, region: Key, chunks: Chunks, *, dims: Optional[Iterable[Any]] = None
) -> tuple[slice, ...]:
    ...


def aligned(
    shape: Numbers, region: Any, chunks: Chunks, *, dims: Optional[Iterable[Any]] = None
) -> Union[tuple[slice, ...], dict[Any, slice]]:
    """The least stretch of whole chunks along each axis with all indices of a region: a slice for each axis.

    Who writes it writes no part of a chunk. An integer gives the slice of its chunk, and a dict a dict of the same
    names. Where a region has no index the slices of its empty axes are `slice(0, 0)`. The arguments are those of
    `first_conflict`.

    >>> aligned((9, 6), (slice(3, 7), 5), chunks=(2, 3))
    (slice(2, 8, None), slice(3, 6, None))
    >>> aligned((9, 6), {"x": slice(1, 9, 7)}, chunks=(2, 3), dims=("x", "y"))
    {'x': slice(0, 9, None)}
    """
    lens, picks, chunk, names = _read(shape, region, chunks, dims)
    slices = tuple([_whole_chunks(*axis) for axis in zip(lens, picks, chunk)])
    if names is not None and isinstance(region, Mapping):
        return {name: along for name, along in zip(names, slices) if name in region}
    return slices


def _whole_chunks(length: int, picks: range, chunk: Chunking) -> slice:
    if not picks:
        return slice(0, 0)
    first, last = sorted((picks[0], picks[-1]))
    return slice(chunk.begin(chunk.number(first)), min(chunk.begin(chunk.number(last) + 1), length))


def _read(
    shape: Numbers, region: Any, chunks: Chunks, dims: Optional[Iterable[Any]]
) -> tuple[Lens, list[range], Sequence[Chunking], Optional[Sequence[Any]]]:
    """The shape, the indices that a region takes along each axis, the chunks there, and the names of the axes."""
    if chunks is None:
        raise TypeError(f"chunk: {written(chunks)} is no list of integers")
    lens, chunk, names = read_store(shape, chunks, dims)
    return lens, picks_of(lens, key_of(region, names)), chunk, names
