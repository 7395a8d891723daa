"""Whether two parts of one buffer share a byte, where neither has to keep the no-alias rule.

They do if and only if a sum of products has a given value: one product for each axis, of its stride and of a number
from 0 to its length less 1. Whether there is such a sum is decided exactly, from the largest stride to the smallest.
Only those numbers are tried that leave a rest which the smaller strides can reach, by its size and by their greatest
common divisor.
"""

from __future__ import annotations

from itertools import accumulate
from math import gcd
from typing import Iterator, NamedTuple, Optional, Sequence, SupportsIndex

from ._errors import ShapeError
from ._numbers import few, work_limit, written

MAX_WORK = 100_000
"""How many steps a comparison may take, of some 2 microseconds, where no other number is given."""


class Part(NamedTuple):
    """A part of a buffer, in bytes: a `View` has the same fields."""

    start: int
    shape: tuple[int, ...]
    strides: tuple[int, ...]


class _Term(NamedTuple):
    """A product: of the stride, which is above 0, and of a number from 0 to the greatest."""

    stride: int
    greatest: int

    @property
    def reach(self) -> int:
        return self.stride * self.greatest


def share_byte(
    first: tuple[int, Sequence[int], Sequence[int]],
    second: tuple[int, Sequence[int], Sequence[int]],
    itemsize: int,
    max_work: Optional[int] = MAX_WORK,
    second_itemsize: Optional[int] = None,
) -> Optional[bool]:
    """Whether elements of two parts share a byte, or `None` where `max_work` steps don't decide.

    Items of the second part have the size of the first one's, where no other is given.

    >>> share_byte(Part(0, (3,), (16,)), Part(40, (3,), (-24,)), itemsize=8)
    True
    >>> share_byte(Part(0, (3,), (16,)), Part(24, (3,), (32,)), itemsize=8)
    False
    """
    if 0 in first[1] or 0 in second[1]:
        return False
    distance, greatest = second[0] - first[0], dict[int, int]()
    for sign, (_, shape, strides) in ((1, first), (-1, second)):
        for length, stride in zip(shape, strides):
            step = sign * stride
            distance -= min(step, 0) * (length - 1)  # (counted down instead, the axis has a stride above 0)
            greatest[abs(step)] = greatest.get(abs(step), 0) + length - 1
    terms = [_Term(stride, number) for stride, number in sorted(greatest.items()) if stride and number]
    after = itemsize if second_itemsize is None else second_itemsize
    return _reaches_between(terms, distance - itemsize + 1, distance + after - 1, max_work)


def most_of(max_work: Optional[SupportsIndex] = MAX_WORK) -> tuple[Optional[int]]:
    """How many steps a comparison may take, or its error."""
    return (work_limit(max_work),)


def are_distinct(shape: Sequence[int], strides: Sequence[int], itemsize: Optional[int], most: tuple[Optional[int]]) -> bool:
    """Whether no two indices of a layout that breaks the no-alias rule have one place, or its elements share a byte."""
    (max_work,) = most
    items = () if itemsize is None else (itemsize,)
    repeats = None if max_work == 0 else repeat_a_place((*shape, *items), (*strides, *(1 for _ in items)), max_work)
    if repeats is None:
        shown = f"shape {few(shape)} and strides {few(strides)} in {'elements' if itemsize is None else 'bytes'}"
        text = f"{shown} may have one place twice, and max_work={written(max_work)} steps don't decide"
        raise ShapeError("Undecided", text)
    return not repeats


def repeat_a_place(shape: Sequence[int], strides: Sequence[int], max_work: Optional[int] = MAX_WORK) -> Optional[bool]:
    """Whether two indices have one place, or `None` where `max_work` steps for each axis don't decide.

    Two indices have one place where the differences of their coordinates, each times its stride, add up to 0. So one
    axis has a difference other than 0, which may be taken as above 0, and none with a greater stride has.

    >>> repeat_a_place((3, 2), (2, 3)), repeat_a_place((4, 3), (2, 3))
    (False, True)
    """
    axes = sorted((abs(stride), length - 1) for length, stride in zip(shape, strides) if length != 1)
    found = [_repeats_along(axis, axes[:k], max_work) for k, axis in enumerate(axes)] if 0 not in shape else []
    return True if True in found else None if None in found else False


def _repeats_along(axis: tuple[int, int], smaller: list[tuple[int, int]], max_work: Optional[int]) -> Optional[bool]:
    """Whether a difference along an axis, above 0, is made up for by the axes of no greater stride."""
    stride, greatest = axis
    distance = sum(other * number for other, number in smaller) - stride
    if stride == 0 or distance < 0:
        return stride == 0
    sums = {stride: greatest - 1}
    for other, number in smaller:  # (from -number to number, counted from the lowest)
        sums[other] = sums.get(other, 0) + 2 * number
    terms = [_Term(*term) for term in sorted(sums.items()) if min(term) > 0]
    return _reaches_between(terms, distance, distance, max_work)


def _reaches_between(terms: list[_Term], first: int, last: int, max_work: Optional[int]) -> Optional[bool]:
    """Whether a sum of the terms is one of the numbers from `first` to `last`. Ascending terms."""
    unit = gcd(*[term.stride for term in terms]) or 1
    lowest, highest = -(-first // unit), last // unit
    if lowest > highest:
        return False
    in_units = [_Term(stride // unit, greatest) for stride, greatest in terms]
    return _reaches_in_groups(_joined([_Term(1, highest - lowest), *in_units]), highest, max_work)


def _joined(terms: list[_Term]) -> list[_Term]:
    """The same sums with fewer terms: the first ones as one, as long as they reach each multiple of their unit."""
    terms = [term for term in terms if term.greatest]
    while len(terms) > 1 and terms[1].stride % terms[0].stride == 0:
        first, second = terms[:2]
        if second.stride > first.reach + first.stride:
            break
        terms[:2] = [_Term(first.stride, (first.reach + second.reach) // first.stride)]
    return terms


class _Group(NamedTuple):
    """Terms that are multiples of a unit, in units, and how far all terms of lesser strides reach together."""

    unit: int
    terms: list[_Term]
    rest: int


def _reaches_in_groups(terms: list[_Term], wanted: int, max_work: Optional[int]) -> Optional[bool]:
    """`_reaches` group by group, from the largest strides on: few rests are left after each, and each is tried once."""
    steps = Steps(max_work)
    rests = {wanted}
    for unit, group, reach in _groups(terms):
        left = set[int]()
        for rest in rests:
            for number in range(max(-(-(rest - reach) // unit), 0), rest // unit + 1):
                reached = _reaches(group, number, steps)
                if reached is None:
                    return None
                if reached:
                    left.add(rest - number * unit)
        rests = left
    return 0 in rests


def _groups(terms: list[_Term]) -> Iterator[_Group]:
    """The terms in groups: a group ends where the lesser strides reach less than two of its units.

    The strides of parts of one array that keeps the no-alias rule are such, axis by axis: two for each. So each group
    has two terms, which need no search, and leaves two rests at most.
    """
    end, unit = len(terms), 0
    reaches = [0, *accumulate(term.reach for term in terms)]
    for begin in range(len(terms) - 1, -1, -1):
        unit = gcd(unit, terms[begin].stride)
        if begin == 0 or reaches[begin] < 2 * unit:
            yield _Group(unit, [_Term(stride // unit, greatest) for stride, greatest in terms[begin:end]], reaches[begin])
            end, unit = begin, 0


class _Level:
    """A term, and what the terms of smaller strides reach."""

    def __init__(self, term: _Term, reach: int, divisor: int) -> None:
        self.stride, self.greatest = term
        self.reach = reach
        self.common = gcd(self.stride, divisor)
        self.period = divisor // self.common
        self.inverse = pow(self.stride // self.common, -1, self.period) if divisor else 0

    def numbers(self, wanted: int) -> range:
        """The numbers that leave a rest within the reach of the others, and a multiple of their common divisor."""
        if wanted % self.common:
            return range(0)
        lowest = max(-(-(wanted - self.reach) // self.stride), 0)
        highest = min(wanted // self.stride, self.greatest)
        first = wanted // self.common * self.inverse % self.period
        return range(lowest + (first - lowest) % self.period, highest + 1, self.period)


class Steps:
    """How many steps are left, of so many; without end for `None`."""

    def __init__(self, limit: Optional[int]) -> None:
        self.left = -1 if limit is None else limit
        self.is_endless = limit is None

    def take(self) -> bool:
        """Takes one, or says that there is none."""
        self.left -= 1
        return self.is_endless or self.left >= 0


def _reaches(terms: list[_Term], wanted: int, steps: Steps) -> Optional[bool]:
    """Whether a sum of ascending terms is the number that is wanted, or `None` where there are too few steps."""
    if not steps.take():
        return None
    if len(terms) < 2:
        stride, greatest = terms[0] if terms else (1, 0)
        return wanted % stride == 0 and 0 <= wanted // stride <= greatest
    levels = _levels(terms)
    pending, seen = [_rests(levels, 0, wanted)], set[tuple[int, int]]()
    while pending:
        rest = next(pending[-1], None)
        if rest is None:
            pending.pop()
        elif len(pending) == len(levels):
            return True  # (the smallest stride divides the rest, and reaches it)
        elif (len(pending), rest) not in seen:
            seen.add((len(pending), rest))
            pending.append(_rests(levels, len(pending), rest))
        if not steps.take():
            return None
    return False


def _levels(terms: list[_Term]) -> list[_Level]:
    """All terms but the smallest, from the largest on."""
    reaches = accumulate(term.reach for term in terms)
    divisors = accumulate((term.stride for term in terms), gcd)
    return [_Level(*level) for level in zip(terms[1:], reaches, divisors)][::-1]


def _rests(levels: list[_Level], at: int, wanted: int) -> Iterator[int]:
    level = levels[at]
    return (wanted - number * level.stride for number in level.numbers(wanted))
