"""Numbers and lists of them, as Python gives them: what isn't usual, which the module in C hands to these, and what errors say."""

from __future__ import annotations

from collections.abc import Mapping, Set
from math import prod
from operator import index
from reprlib import Repr
from typing import Any, Iterable, Optional, Protocol, Sequence, SupportsIndex, Union

from ._errors import LayoutError, NegativeIndexError, OutOfBoundsError, ShapeError, SizeOverflowError

Numbers = Union[SupportsIndex, Iterable[SupportsIndex]]
"""A list of numbers. One number alone is a list of one, as NumPy takes `5` for the shape `(5,)`."""

Lens = tuple[int, ...]


class Array(Protocol):
    """What is read of an array: its strides count in bytes."""

    @property
    def shape(self) -> tuple[int, ...]:
        ...

    @property
    def strides(self) -> tuple[int, ...]:
        ...

    @property
    def itemsize(self) -> int:
        ...


LIMIT = 2**63 - 1
"""The greatest size and span of a layout."""


def integers(numbers: Numbers, name: str) -> Lens:
    """The numbers of a list, as Python's own. Where one is none it is a `TypeError`, which calls it by `name`."""
    if type(numbers) is int:
        return (numbers,)
    listed = numbers if type(numbers) is tuple else listing(numbers, name)
    for number in listed:
        if type(number) is not int:
            return tuple([integer(number, name, axis) for axis, number in enumerate(listed)])
    return listed


def listing(numbers: Numbers, name: str = "length") -> tuple[Any, ...]:
    """The numbers of a list, each read once: of one number that alone."""
    try:
        return entries(numbers, name, "integers")
    except TypeError:
        if hasattr(numbers, "__index__"):
            return (numbers,)
        raise


def entries(values: Any, name: str, kind: str) -> tuple[Any, ...]:
    """The entries of a list, each read once. Sets and dicts, whose order says nothing, are none."""
    if type(values) is tuple or type(values) is list:
        return tuple(values)
    try:
        iterator = iter(values)
    except TypeError:
        iterator = None
    if iterator is None or isinstance(values, (Set, Mapping)):
        raise TypeError(f"{name}: {written(values)} is no list of {kind}")
    return tuple(iterator)


def integer(number: SupportsIndex, name: str, axis: Optional[int] = None) -> int:
    """A number of Python, as NumPy reads it. What is none is a `TypeError`, which calls it by `name`."""
    read = number if type(number) is int else as_integer(number)
    if read is None:
        raise TypeError(f"{_of_axis(axis)}{name} is an integer, not {written(number)}")
    return read


def as_integer(value: Any) -> Optional[int]:
    """The integer that NumPy reads, which takes no boolean for one, or `None`."""
    try:
        return index(value) if type(value).__name__ not in _BOOLEANS else None
    except TypeError:
        return None


_BOOLEANS = ("bool", "bool_")
"""The names of the types of Python's booleans and of NumPy's."""


def flag(value: Any, name: str) -> bool:
    """Yes or no, of a boolean of Python or of NumPy. Words and numbers say neither, whatever Python takes them for."""
    if type(value).__name__ not in _BOOLEANS:
        raise TypeError(f"{name} is true or false, not {written(value)}")
    return bool(value)


def flag_or_none(value: Any, name: str) -> Optional[bool]:
    """Yes or no, or `None` where that is to be found."""
    return None if value is None else flag(value, name)


def work_limit(max_work: Optional[SupportsIndex]) -> Optional[int]:
    """How many steps a comparison may take, or `None`."""
    return None if max_work is None else limit(max_work, "max_work", ", and `None` is without end")


def limit(number: SupportsIndex, name: str, what_else: str = "") -> int:
    """How many of something there may be: of any size, and not negative."""
    most = integer(number, name)
    if most < 0:
        raise SizeOverflowError("Overflow", f"{name} {said(most)} is negative{what_else}", None, {name: most})
    return most


def above_0(itemsize: SupportsIndex) -> int:
    """An item size, or its error."""
    unit = integer(itemsize, "itemsize")
    if unit < 1:
        raise ShapeError("Unsupported", f"the item size {said(unit)} isn't above 0", None, {"itemsize": unit})
    return unit


def axis_of(axis: SupportsIndex, axes: int) -> int:
    """An axis, counted from the end where it is negative."""
    number = integer(axis, "axis")
    if not -axes <= number < axes:
        numbers = {"axis": number, "axes": axes}
        raise OutOfBoundsError("OutOfBounds", f"axis {said(number)}: there are {axes} axes", None, numbers)
    return number % axes


def axis_twice(number: int) -> LayoutError:
    return ShapeError("Unsupported", f"axis {number} is there twice", number, {"axis": number})


def no_array(value: Any) -> TypeError:
    """The error of what is no array, in the place of one."""
    return TypeError(f"array: {written(value)} has no shape, strides and itemsize, and no strides are given beside it")


def no_order(order: Any, has_layout: bool) -> LayoutError:
    """The error of what is no order. Where there is a layout it may be 'A'."""
    words = "'C', 'F' or 'A'" if has_layout else "'C' or 'F'"
    return ShapeError("BadArgument", f"order must be {words}, not {written(order)}")


def not_64_bits(name: str, number: int, is_unsigned: bool, axis: Optional[int]) -> SizeOverflowError:
    """The error of a number that is none of C's."""
    if is_unsigned and number < 0 and name in ("index", "axis"):
        text = f"{_of_axis(axis)}{name} {said(number)} is negative, and isn't counted from the end here"
        return NegativeIndexError("OutOfBounds", text, axis, {name: number})
    what = "negative" if is_unsigned and number < 0 else "past 64 bits"
    return SizeOverflowError("Overflow", f"{_of_axis(axis)}{name} {said(number)} is {what}", axis, {name: number})


def _of_axis(axis: Optional[int]) -> str:
    return "" if axis is None else f"axis {axis}: "


# ---- What the texts of errors say


def said(number: int) -> str:
    """A number in digits, by its exponent where it is a large power of two or next to one, or by a bound.

    A number of many digits takes long to write, and past 4,300 Python refuses to.

    >>> said(12), said(2**64), said(2**63 - 1), said(10**5000)
    ('12', '2**64', '2**63 - 1', 'more than 2**16609')
    """
    sign, far = ("-" if number < 0 else ""), abs(number)
    if far < 2**32:
        return str(number)
    bits = far.bit_length()
    if far & (far - 1) == 0:
        return f"{sign}2**{bits - 1}"
    if far & (far + 1) == 0 and not sign:
        return f"2**{bits} - 1"
    if bits > 128:
        return f"{'less' if sign else 'more'} than {sign}2**{bits - 1}"
    return str(number)


class _Written(Repr):
    """`repr` in a few letters, also where Python has none."""

    def __init__(self) -> None:
        super().__init__()
        self.maxstring = self.maxother = 80
        self.maxtuple = self.maxlist = 32

    def repr_int(self, number: int, level: int) -> str:
        return said(number)


_texts = _Written()


def written(value: Any) -> str:
    """Any value, as an error shows it."""
    try:
        return _texts.repr(value)
    except Exception:  # (of a class that has the name of one of Python's)
        return f"a {type(value).__name__}"


def few(numbers: Sequence[int]) -> str:
    """A shape or strides, as an error shows them beside others.

    >>> few([2, 3]), few((1, 2, 3, 4, 5, 6, 7, 8, 9))
    ('(2, 3)', '(1, 2, 3, 4, 5, 6, 7, 8, ...)')
    """
    return written(tuple(numbers)) if len(numbers) <= 8 else f"({', '.join(map(said, numbers[:8]))}, ...)"


FAR = 2**1024 + 1
"""What stands for a product of lengths that is as large or larger. (found, it would take the square of their count)"""


def product(lengths: Sequence[int]) -> int:
    """The product of lengths, or `FAR`.

    >>> product((2, 3)), product((2**600,) * 3) == FAR, product((2**600, 2**600, 0))
    (6, True, 0)
    """
    found = int(0 not in lengths)
    for begin in range(0, len(lengths), 64):
        found *= prod(lengths[begin : begin + 64])
        if found >= FAR:
            return FAR
    return found
