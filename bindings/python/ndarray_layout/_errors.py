"""The errors that the calls raise."""

from __future__ import annotations

from functools import update_wrapper
from types import FunctionType
from typing import Any, Iterable, Mapping, Optional


class LayoutError(Exception):
    """A call of the layer returned an error.

    `kind` is its kind, as 'OutOfBounds', and `text` says why. Where one axis is to blame `axis` is its number, and
    `numbers` has what the text says of it by name, as {'index': 9, 'length': 5}. The text gives a bound, as 'more than
    2**16609', for a number past 128 bits. For a size past 2**1024 `numbers` has 2**1024 + 1.
    """

    __module__ = "ndarray_layout"

    def __init__(
        self, kind: str, text: str, axis: Optional[int] = None, numbers: Optional[Mapping[str, int]] = None
    ) -> None:
        super().__init__(kind, text, axis, dict(numbers or {}))  # (with which `pickle` and `copy` call the class)

    @property
    def kind(self) -> str:
        """The kind's name."""
        return self.args[0]  # type: ignore[no-any-return]

    @property
    def text(self) -> str:
        """What is wrong."""
        return self.args[1]  # type: ignore[no-any-return]

    @property
    def axis(self) -> Optional[int]:
        """The axis that is to blame, where one is."""
        return self.args[2]  # type: ignore[no-any-return]

    @property
    def numbers(self) -> dict[str, int]:
        """What the text says of it, by name."""
        return self.args[3]  # type: ignore[no-any-return]

    def __str__(self) -> str:
        return self.text


class ShapeError(LayoutError, ValueError):
    """A rule of shapes and layouts is broken. Its kind is one of these:

    - 'IncompatibleShape' and 'IncompatibleLayout': shapes, counts of axes or strides that don't go together;
    - 'Unsupported': what no layout has, as a step of 0, or a writable one whose indices share a place;
    - 'IncompatibleBuffer': a buffer with gaps, without bytes, or of items that Python or NumPy can't name;
    - 'Undecided': `max_work` steps or `max_parts` parts didn't decide;
    - 'BadArgument': a word that says nothing here, as an order 'K', or an order beside strides.

    >>> error = ShapeError("Unsupported", "axis 0: the step is 0", axis=0)
    >>> print(error)
    Unsupported: axis 0: the step is 0
    """

    __module__ = "ndarray_layout"

    def __str__(self) -> str:
        return f"{self.kind}: {self.text}"


class OutOfBoundsError(LayoutError, IndexError):
    """An index, a bound or a layout as a whole leaves its bounds."""

    __module__ = "ndarray_layout"


class SizeOverflowError(LayoutError, OverflowError):
    """A size or a span is above the limit, or a number is negative or past 64 bits where none may be."""

    __module__ = "ndarray_layout"


class NegativeIndexError(OutOfBoundsError, SizeOverflowError):
    """An index or an axis is negative where it isn't counted from the end: an `IndexError` and an `OverflowError`."""

    __module__ = "ndarray_layout"


class OutOfMemoryError(LayoutError, MemoryError):
    """An allocation failed."""

    __module__ = "ndarray_layout"


_CLASSES: Mapping[str, type[LayoutError]] = {
    "OutOfBounds": OutOfBoundsError,
    "Overflow": SizeOverflowError,
    "OutOfMemory": OutOfMemoryError,
}


def is_own(error: BaseException) -> bool:
    """Whether an error was raised by the package, and not by what it called."""
    last = error.__traceback__
    while last is not None and last.tb_next is not None:
        last = last.tb_next
    is_of_package = last is not None and last.tb_frame.f_globals.get("__package__") == __package__
    return is_of_package and isinstance(error, (LayoutError, TypeError))


def shown_once(call: Any) -> Any:
    """A public call, whose errors show one frame of the package: that of this call.

    Where the error comes of a caller's own code, such as an iterator, its frames stay.
    """

    kinds, hides = (LayoutError, TypeError), is_own  # (which a call in another file doesn't name)

    def shown(*arguments: Any, **named: Any) -> Any:
        try:
            return call(*arguments, **named)
        except kinds as error:
            if not hides(error):
                raise
            raise error.with_traceback(None)

    code = shown.__code__.replace(co_name=call.__name__)
    return update_wrapper(FunctionType(code, call.__globals__, call.__name__, None, shown.__closure__), call)


def show_once(public: dict[str, Any], kinds: Iterable[type] = ()) -> None:
    """Lets the errors of public calls, and of the methods of classes, show one frame of the package."""
    for name, call in [*public.items()]:
        if isinstance(call, FunctionType) and call.__module__.startswith(__package__ or "") and name[0] != "_":
            public[name] = shown_once(call)
    for kind in kinds:
        for name, value in [*vars(kind).items()]:
            if isinstance(value, FunctionType) and name[0] != "_":
                setattr(kind, name, shown_once(value))


def error_of_kind(
    kind: str, text: str, axis: Optional[int] = None, numbers: Optional[Mapping[str, int]] = None
) -> LayoutError:
    """An error of the class that stands for its kind."""
    return _CLASSES.get(kind, ShapeError)(kind, text, axis, numbers)


def of_one(name: str, position: int, error: Exception) -> Exception:
    """The error of one of many, which says which.

    >>> of_one("key", 3, ShapeError("Unsupported", "axis 0: the step is 0", 0, {"step": 0})).numbers
    {'key': 3, 'step': 0}
    """
    text = f"{name} {position}: {error.text if isinstance(error, LayoutError) else error}"
    if isinstance(error, LayoutError):
        return type(error)(error.kind, text, error.axis, {name: position, **error.numbers})
    return TypeError(text)
