"""Which of many boxes share an index. A box has an interval of numbers along each axis.

Boxes that an axis sets apart are told from each other first, one axis after another. What hangs together on every axis
is halved along one, as in a segment tree: a box over a whole half is compared on the other axes alone.
"""

from __future__ import annotations

from itertools import combinations, product
from typing import Iterable, Iterator, NamedTuple

Pair = tuple[int, int]

FEW = 8
"""So many boxes are compared each with each, which takes less time."""

TRIES = 8
"""So many times each axis is tried before a group is halved: the last of many cuts may leave it nearly whole."""


class Intervals(NamedTuple):
    """The least and the greatest number of each box along one axis, by the position of the box."""

    lows: list[int]
    highs: list[int]


class _Group(NamedTuple):
    """Some boxes, the axis that is tried next, how many were tried in vain since one set them apart, how many boxes
    were there when the group was last halved, and how many axes were tried since.
    """

    members: list[int]
    axis: int
    in_vain: int
    once: int
    tries: int


def groups_of(axes: list[Intervals], members: list[int]) -> Iterator[list[int]]:
    """The boxes in groups, without those that are alone. No two of different groups share an index.

    A group is tried on one axis after another, until no axis sets it apart or `TRIES` for each axis don't halve it.
    """
    pending = [_Group(members, 0, 0, len(members), 0)] if len(members) > 1 else []
    while pending:
        group = pending.pop()
        if len(group.members) > FEW and group.in_vain < len(axes) and group.tries < TRIES * len(axes):
            pending += _smaller_groups(axes, group)
        else:
            yield group.members


def _smaller_groups(axes: list[Intervals], group: _Group) -> Iterator[_Group]:
    """What an axis sets apart of a group, from the last on, without boxes that are alone."""
    found = _set_apart(axes[group.axis], group.members)
    axis, in_vain = (group.axis + 1) % len(axes), group.in_vain + 1 if len(found) == 1 else 0
    for members in reversed(found):
        if len(members) > 1:
            is_half = 2 * len(members) <= group.once
            yield _Group(members, axis, in_vain, *((len(members), 0) if is_half else (group.once, group.tries + 1)))


def _set_apart(axis: Intervals, members: list[int]) -> list[list[int]]:
    """The boxes in groups of which no two have a number in common."""
    lows, highs = axis
    groups: list[list[int]] = []
    reach = -1
    for box in sorted(members, key=lows.__getitem__):
        if lows[box] > reach:
            groups.append([box])
            reach = highs[box]
        else:
            groups[-1].append(box)
            reach = max(reach, highs[box])
    return groups


def pairs_of(axes: list[Intervals], members: list[int]) -> Iterator[Pair]:
    """Each two of the boxes that share an index, some of them more than once."""
    axes = [axis for axis in axes if _sets_two_apart(axis, members)]
    if len(members) <= FEW or not axes:
        return _of_those(axes, combinations(members, 2))
    in_order = sorted(members, key=axes[-1].lows.__getitem__)
    return _halved(axes, in_order, in_order)


def _sets_two_apart(axis: Intervals, members: list[int]) -> bool:
    return max(map(axis.lows.__getitem__, members)) > min(map(axis.highs.__getitem__, members))


def _of_those(axes: list[Intervals], pairs: Iterable[Pair]) -> Iterator[Pair]:
    for one, other in pairs:
        if one != other and all(lows[one] <= highs[other] and lows[other] <= highs[one] for lows, highs in axes):
            yield one, other


def _halved(axes: list[Intervals], spans: list[int], begins: list[int]) -> Iterator[Pair]:
    """A box of each list, each two that share an index: along the first axis the second begins within the first.

    Each list is in order along the last axis, and so are all that are made of them. What a list has on the axes before
    one was compared when it comes to that axis.
    """
    pending, last_axis = [(0, spans, begins)], len(axes) - 1
    while pending:
        at, spans, begins = pending.pop()
        if at == last_axis:
            yield from _merged(axes[at], spans, begins)
            continue
        if len(spans) * len(begins) <= FEW * FEW:
            yield from _of_those(axes[at:], product(spans, begins))
            continue
        lows, highs = axes[at]
        numbers = [lows[box] for box in begins]
        first, last = min(numbers), max(numbers)
        near = [box for box in spans if lows[box] <= last and highs[box] >= first]
        whole = [box for box in near if lows[box] <= first and highs[box] >= last]
        if len(whole) < len(near):
            parted = [box for box in near if lows[box] > first or highs[box] < last]
            middle = (first + last) // 2
            pending.append((at, parted, [box for box in begins if lows[box] > middle]))
            pending.append((at, parted, [box for box in begins if lows[box] <= middle]))
        if whole and at + 1 < last_axis:  # (on the others either may begin within the other)
            pending.append((at + 1, begins, whole))
        if whole:
            pending.append((at + 1, whole, begins))


def _merged(axis: Intervals, ones: list[int], others: list[int]) -> Iterator[Pair]:
    """A box of each list, each two whose intervals overlap. Each list ascends.

    A box that ends before one of the other list begins is apart from all that come later there.
    """
    lows, highs = axis
    near: tuple[list[int], list[int]] = ([], [])
    starts = [lows[box] for box in ones], [lows[box] for box in others]
    at = [0, 0]
    while at[0] < len(ones) or at[1] < len(others):
        side = int(at[0] == len(ones) or at[1] < len(others) and starts[1][at[1]] < starts[0][at[0]])
        box, low = (ones, others)[side][at[side]], starts[side][at[side]]
        at[side] += 1
        left = [other for other in near[1 - side] if highs[other] >= low]
        near[1 - side][:] = left
        near[side].append(box)
        if not left and at[1 - side] == len((ones, others)[1 - side]):
            return
        for other in left:
            if other != box:
                yield other, box
