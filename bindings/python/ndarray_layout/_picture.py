"""Pictures of a layout, as SVG: of few elements each cell, of many the axes and the stretch that they reach.

All is drawn in the colour of the page's text and in one that shows on light and on dark. An SVG file of its own follows
what its reader prefers.
"""

from __future__ import annotations

from html import escape
from itertools import product
from math import log, prod
from typing import TYPE_CHECKING, Iterator, Optional

from ._native import has_overlap
from ._numbers import Lens
from ._sharing import repeat_a_place

if TYPE_CHECKING:
    from ._layout import Layout

FEW = 64
"""So many elements, and indices, are drawn as cells."""

LINE = 16
"""So many elements of the buffer are drawn side by side."""

_HEIGHT, _GAP, _MARGIN, _LETTER = 34.0, 8.0, 10.0, 6.5
_SIDE, _LEAST = 120.0, 24.0
_MOST_AXES = 9
_STEPS = 2_000

_STYLE = (
    "<style>svg.ndarray-layout:root{color-scheme:light dark;color:#1b1b1b;background:#fff}"
    "@media(prefers-color-scheme:dark){svg.ndarray-layout:root{color:#eee;background:#161616}}</style>"
)


def svg_of(layout: Layout) -> str:
    """The picture of a layout."""
    is_small = 0 < layout.size <= FEW and layout.length <= FEW
    drawn = _Cells(layout) if is_small else _Scheme(layout)
    size = f'width="{drawn.width:g}" height="{drawn.height:g}" viewBox="0 0 {drawn.width:g} {drawn.height:g}"'
    head = 'xmlns="http://www.w3.org/2000/svg" class="ndarray-layout" fill="currentColor" font-family="sans-serif"'
    return f'<svg {head} {size} role="img">{_STYLE}<title>{escape(repr(layout))}</title>{"".join(drawn.parts)}</svg>'


def html_of(layout: Layout) -> str:
    """A table of the numbers of a layout, beside its picture."""
    numbers = {
        "shape": layout.shape,
        "strides": layout.strides,
        "start": f"{layout.start:,}",
        "size": f"{layout.size:,}",
        "over": f"{layout.length:,} elements",
        "bytes": f"{layout.nbytes:,}, {layout.itemsize} each",
        "format": layout.format or "none",
        "writable": "yes" if layout.writable else "no, only to be read",
    }
    rows = "".join(f"<tr><th>{name}</th><td>{escape(str(value))}</td></tr>" for name, value in numbers.items())
    return f"<table><tr><td><table>{rows}</table></td><td>{svg_of(layout)}</td></tr></table>"


class _Drawing:
    """Parts of a picture, and how far they reach."""

    def __init__(self) -> None:
        self.parts: list[str] = []
        self.width = self.height = 0.0

    def text(self, x: float, y: float, words: str, size: int = 11, anchor: str = "start") -> None:
        """Words, whose base line begins, ends or has its middle at a point."""
        self.parts.append(f'<text x="{x:g}" y="{y:g}" font-size="{size}" text-anchor="{anchor}">{escape(words)}</text>')
        reach = {"start": 1.0, "middle": 0.5, "end": 0.0}[anchor] * len(words) * _LETTER * size / 11
        self.reach(x + reach, y + 4)

    def box(self, x: float, y: float, width: float, height: float, opacity: float, name: str) -> None:
        """A rectangle, more or less full, with a name that shows where a pointer rests on it."""
        at = f'x="{x:g}" y="{y:g}" width="{width:g}" height="{height:g}"'
        look = f'fill="#3d7eff" fill-opacity="{opacity:g}" stroke="currentColor" stroke-opacity=".6"'
        self.parts.append(f"<rect {at} {look}><title>{escape(name)}</title></rect>")
        self.reach(x + width, y + height)

    def lines(self, *corners: tuple[float, float]) -> None:
        """Lines from corner to corner."""
        points = " ".join(f"{x:g},{y:g}" for x, y in corners)
        look = 'fill="#3d7eff" fill-opacity=".15" stroke="currentColor" stroke-opacity=".6"'
        self.parts.append(f'<polygon points="{points}" {look}/>')
        for x, y in corners:
            self.reach(x, y)

    def reach(self, x: float, y: float) -> None:
        self.width, self.height = max(self.width, x + _MARGIN), max(self.height, y + _MARGIN)


class _Cells(_Drawing):
    """A cell for each index, with its coordinates and its place, and below one for each element of the buffer."""

    def __init__(self, layout: Layout) -> None:
        super().__init__()
        indices = [*product(*map(range, layout.shape))]
        names = [",".join(map(str, index)) or "()" for index in indices]
        places = layout.places()
        self.wide = max(_HEIGHT, *(len(name) * _LETTER + 8 for name in names))
        self.text(_MARGIN, 20, "the view: index, and place below it")
        y = self._view(layout, names, places) + 3 * _GAP
        self.text(_MARGIN, y, "the buffer: place, and the index that lies there")
        self._buffer(layout, names, places, y + _GAP)

    def _view(self, layout: Layout, names: list[str], places: tuple[int, ...]) -> float:
        """The last axis goes to the right. Returns where it ends."""
        columns = layout.shape[-1] if layout.shape else 1
        rows_of_block = layout.shape[-2] if len(layout.shape) > 1 else 1
        bottom = 28.0
        for at, (name, place) in enumerate(zip(names, places)):
            row, column = divmod(at, columns)
            y = 28 + row * _HEIGHT + row // rows_of_block * _GAP
            bottom = y + _HEIGHT
            self.cell(_MARGIN + column * self.wide, y, (name, str(place)), f"index ({name}) has place {place}", 0.3)
        return bottom

    def _buffer(self, layout: Layout, names: list[str], places: tuple[int, ...], y: float) -> None:
        lying: dict[int, list[str]] = {}
        for name, place in zip(names, places):
            lying.setdefault(place, []).append(name)
        for place in range(layout.length):
            row, column = divmod(place, LINE)
            found = lying.get(place, [])
            name = f"{len(found)} times" if len(found) > 1 else "".join(found)
            words = name if len(found) < 2 else f"×{len(found)}"
            at = _MARGIN + column * self.wide, y + row * (_HEIGHT + _GAP)
            opacity = 0.3 if len(found) == 1 else 0.55 if found else 0.03
            self.cell(*at, (str(place), words), f"place {place}: {name or 'no index'}", opacity)

    def cell(self, x: float, y: float, words: tuple[str, str], name: str, opacity: float) -> None:
        self.box(x, y, self.wide, _HEIGHT, opacity, name)
        for line, word in enumerate(words):
            self.text(x + self.wide / 2, y + 14 + 14 * line, word, anchor="middle")


class _Scheme(_Drawing):
    """The axes in boxes of up to three, with lengths and strides, and the stretch of the buffer that they reach."""

    def __init__(self, layout: Layout) -> None:
        super().__init__()
        axes = range(max(len(layout.shape) - _MOST_AXES, 0), len(layout.shape))
        x = _MARGIN
        for group in _in_threes(axes):
            name = f"axis {group[0]}"
            self._box_of(layout, group, x + len(name) * _LETTER if len(group) > 2 else x)
            x = self.width + _GAP
        y = max(self.height, 20.0)
        left_out = f"{axes.start} axes before these, " if axes.start else ""
        self.text(_MARGIN, y, f"{left_out}{layout.size:,} indices" if layout.size else "no index")
        for axis in axes:
            y += 16
            self.text(_MARGIN, y, f"axis {axis}: length {layout.shape[axis]:,}, stride {layout.strides[axis]:,}")
        self._stretch(layout, y + 2 * _GAP)

    def _box_of(self, layout: Layout, axes: list[int], x: float) -> None:
        """The last axis goes to the right, the one before it down, and the one before that to the back."""
        longest = log(max(layout.shape) + 1)
        sides = [_LEAST + (_SIDE - _LEAST) * log(layout.shape[axis] + 1) / max(longest, 1) for axis in axes]
        width, height, depth = ([*sides[::-1], *(_LEAST, 0.0)[len(sides) - 1 :]] + [0.0])[:3]
        back, y = depth * 0.4, 20 + depth * 0.4
        if back:
            self.lines((x, y), (x + back, y - back), (x + back + width, y - back), (x + width, y))
            right = x + width
            self.lines((right, y), (right + back, y - back), (right + back, y - back + height), (right, y + height))
            self.text(x - 2 + back / 2, y - back / 2 - 3, f"axis {axes[-3]}", anchor="end")
        self.box(x, y, width, height, 0.15, ", ".join(f"axis {axis}" for axis in axes))
        self.text(x, y + height + 13, f"axis {axes[-1]}")
        if len(axes) > 1:
            self.text(x + width + back + 4, y + height / 2 + 4 - back, f"axis {axes[-2]}")

    def _stretch(self, layout: Layout, y: float) -> None:
        """The elements of the buffer as a bar, and from the lowest to the highest that an index has."""
        spans = [(length - 1) * stride for length, stride in zip(layout.shape, layout.strides)]
        lowest = layout.start + sum(min(span, 0) for span in spans)
        highest = layout.start + sum(max(span, 0) for span in spans)
        whole = 3 * _SIDE
        self.box(_MARGIN, y, whole, 16, 0.03, f"{layout.length:,} elements")
        if layout.size:
            part = (highest - lowest + 1) / layout.length * whole
            at = _MARGIN + lowest / layout.length * whole
            self.box(at, y, max(part, 1.0), 16, 0.3, f"places {lowest:,} to {highest:,}")
            words = f"places {lowest:,} to {highest:,} of {layout.length:,}, the start at {layout.start:,}"
        else:
            words = f"no place of {layout.length:,}"
        for line, said in enumerate([words, *_of_places(layout, highest - lowest + 1)]):
            self.text(_MARGIN, y + 32 + 16 * line, said)


def _of_places(layout: Layout, stretch: int) -> Iterator[str]:
    """How many indices share a place, and how many places of so many have an index, where few steps decide it."""
    if not layout.size:
        return
    found = count_places(layout.shape, layout.strides)
    if found is None:
        yield "some indices share a place, or may share one"
        return
    used, most = found
    if most is None:
        yield "some indices share a place"
    elif most > 1:
        of_each = used * most == layout.size
        yield f"{most:,} indices share each place" if of_each else f"at most {most:,} indices share a place"
    if used < stretch:
        part = f"one of {round(stretch / used):,}" if stretch >= 2 * used else f"{used / stretch:.0%}"
        yield f"{used:,} of these {stretch:,} places have an index, {part}"


def count_places(shape: Lens, strides: Lens) -> Optional[tuple[int, Optional[int]]]:
    """How many places the indices of a shape with an index have, and how many of these share one at most.

    Exact, or `None` where few steps don't decide. Axes of one stride are one, whose places several indices have.

    >>> count_places((5, 3), (1, 1)), count_places((4, 3), (12, 0)), count_places((3, 4), (4, 1))
    ((7, 3), (4, 3), (12, 1))
    """
    lengths: dict[int, list[int]] = {}
    for length, stride in zip(shape, strides):
        if length > 1:
            lengths.setdefault(abs(stride), []).append(length)
    most: Optional[int] = prod(lengths.pop(0, []))
    joined = {stride: 1 + sum(length - 1 for length in along) for stride, along in lengths.items()}
    lens, steps = tuple(joined.values()), tuple(joined)
    if has_overlap(lens, steps) and repeat_a_place(lens, steps, _STEPS) is not False:
        return None
    for along in lengths.values():
        share = _most_sums(along)
        most = None if most is None or share is None else most * share
    return prod(lens), most


def _most_sums(lengths: list[int]) -> Optional[int]:
    """How many lists of coordinates below some lengths have one sum at most, or `None` for many long axes."""
    if len(lengths) < 3:
        return min(lengths) if len(lengths) == 2 else 1
    if sum(lengths) * len(lengths) > _STEPS:
        return None
    counts = [1]
    for length in lengths:
        padded = [0] * (length - 1) + counts + [0] * (length - 1)
        counts = [sum(padded[at : at + length]) for at in range(len(counts) + length - 1)]
    return max(counts)


def _in_threes(axes: range) -> Iterator[list[int]]:
    """The axes in threes from the last on; what is left over comes first."""
    first = len(axes) % 3
    ends = [axes.start, *range(axes.start + (first or 3), axes.stop, 3), axes.stop]
    for begin, end in zip(ends, ends[1:]):
        if begin < end:
            yield [*range(begin, end)]
