"""Chunks of a store along one axis: of one length, or each of its own."""

from __future__ import annotations

from bisect import bisect_right
from itertools import accumulate
from math import gcd
from typing import Any, Iterable, Mapping, NamedTuple, Sequence, Union

from ._errors import ShapeError, error_of_kind
from ._keys import lengths_of
from ._numbers import Lens, Numbers, as_integer, entries, integer, listing, not_64_bits, said, written
from ._reasons import of_chunk

Chunks = Union[Numbers, Iterable[Union[int, None, Iterable[int]]], Mapping[Any, Any]]
"""The length of a chunk along each axis, -1 or `None` for the whole axis, or a list of the lengths of all its chunks; also by
the names of the axes.
"""


class Even(NamedTuple):
    """Chunks of one length."""

    length: int

    def number(self, index: int) -> int:
        """The number of the chunk of an index."""
        return index // self.length

    def begin(self, number: int) -> int:
        """The first index of a chunk, or where the chunks end."""
        return number * self.length

    def count(self, picks: range) -> int:
        """How many ranges the numbers of the chunks make up: `touched` without a list."""
        step = abs(picks.step)
        if self.length == 1 or step <= self.length or not picks:
            return min(len(picks), 1)
        return min(len(picks), self.length // gcd(step, self.length))  # (so many steps are a multiple of the chunk)

    def touched(self, picks: range) -> list[range]:
        """The numbers of the chunks that have one of the indices, in ranges that ascend: each number once."""
        ascending = picks if picks.step > 0 else picks[::-1]
        count = self.count(picks)
        if self.length == 1 or not picks:
            return [ascending][:count]
        if ascending.step <= self.length:
            return [range(ascending[0] // self.length, ascending[-1] // self.length + 1)]
        return [_numbers(ascending[begin::count], self.length) for begin in range(count)]


class Uneven(NamedTuple):
    """Chunks each of its own length, by where each ends: those of no length have no index."""

    ends: tuple[int, ...]

    def number(self, index: int) -> int:
        """The number of the chunk of an index."""
        return bisect_right(self.ends, index)

    def begin(self, number: int) -> int:
        """The first index of a chunk, or where the chunks end."""
        return self.ends[number - 1] if number else 0

    def count(self, picks: range) -> int:
        """How many ranges the numbers of the chunks make up."""
        return len(self.touched(picks))

    def touched(self, picks: range) -> list[range]:
        """The numbers of the chunks that have one of the indices, in ranges that ascend: each number once.

        The search goes from chunk to chunk, so it takes time for the chunks that have one, and not for the indices.
        """
        ascending, found, at = picks if picks.step > 0 else picks[::-1], list[range](), 0
        while at < len(ascending):
            number = self.number(ascending[at])
            if found and found[-1].stop == number:
                found[-1] = range(found[-1].start, number + 1)
            else:
                found.append(range(number, number + 1))
            at = -(-(self.ends[number] - ascending[0]) // ascending.step)  # (the first index past this chunk)
        return found


Chunking = Union[Even, Uneven]


def _numbers(picks: range, chunk: int) -> range:
    """The numbers of the chunks of indices whose step is a multiple of the chunk, or that are one."""
    return range(picks[0] // chunk, picks[-1] // chunk + 1, max(picks.step // chunk, 1))


def read_chunks(shape: Lens, chunks: Chunks) -> Sequence[Chunking]:
    """The chunks along each axis. Raises `ShapeError` where they aren't those of a shape."""
    if isinstance(chunks, str):
        raise TypeError(f"chunk: {_to_choose(chunks)}")
    lengths = listing(chunks, "chunk")  # type: ignore[arg-type]
    listed = [_whole(axis, length, shape) for axis, length in enumerate(lengths)]
    if len(listed) != len(shape):
        text = f"chunks has {len(listed)} lengths for {len(shape)} axes, and needs one for each: -1 is the whole axis"
        raise ShapeError("IncompatibleShape", text, None, {"lengths": len(listed), "axes": len(shape)})
    lists = {axis for axis, length in enumerate(listed) if not hasattr(length, "__index__") and _is_list(length)}
    evens = lengths_of([1 if axis in lists else length for axis, length in enumerate(listed)], "chunk")
    fault = of_chunk(shape, evens)
    if fault is not None:
        raise error_of_kind(*fault)
    along = zip(range(len(shape)), shape, listed, evens)
    return [_along(axis, length, of) if axis in lists else Even(even) for axis, length, of, even in along]


def _whole(axis: int, chunk: Any, shape: Lens) -> Any:
    """The chunk along an axis, where -1 and `None` are its whole length, as Dask takes them."""
    if isinstance(chunk, str):
        raise TypeError(f"axis {axis}: chunk: {_to_choose(chunk)}")
    if axis < len(shape) and (chunk is None or not _is_list(chunk) and as_integer(chunk) == -1):
        return max(shape[axis], 1)
    return chunk


def _to_choose(chunk: str) -> str:
    return f"{written(chunk)} leaves the length to Dask: the array's own `chunks` have it, and -1 is the whole axis"


def _is_list(value: Any) -> bool:
    return hasattr(value, "__iter__") and not isinstance(value, (str, bytes))


def _along(axis: int, length: int, lengths: Iterable[Any]) -> Chunking:
    """The chunks along an axis with a list of their lengths."""
    found = [block_length(axis, number, "chunk") for number in entries(lengths, f"axis {axis}: chunk", "lengths")]
    ends = tuple(accumulate(found))
    total = ends[-1] if ends else 0
    if total != length:
        text = f"axis {axis}: the chunks have {said(total)} of {said(length)} indices"
        raise ShapeError("IncompatibleShape", text, axis, {"chunks": total, "length": length})
    is_even = found and found[0] > 0 and {*found[:-1]} <= {found[0]} and found[-1] <= found[0]
    return Even(found[0]) if is_even else Uneven(ends)


def block_length(axis: int, length: Any, name: str = "block") -> int:
    """The length of a block or of a chunk, or its error."""
    number = integer(length, f"the length of a {name}", axis)
    if number < 0:
        raise not_64_bits(name, number, True, axis)
    return number
