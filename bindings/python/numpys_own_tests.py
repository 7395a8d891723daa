"""NumPy's own tests of strides and of overlap, with the calls of `ndarray_layout` in the place of NumPy's.

    python3 numpys_own_tests.py

The tests are those of the NumPy that is installed: `test_mem_overlap` and `test_stride_tricks`, which need pytest.
What stands in is listed in `OVERLAP` and `STRIDES`. `SKIPPED` names the tests that fail with it, and says why.
Where NumPy or pytest is missing, or lacks a name, they fail.
"""

import importlib
import unittest
import warnings
from collections import Counter
from functools import reduce
from unittest import mock

import numpy as np
import pytest
from numpy.core._multiarray_tests import solve_diophantine
from numpy.lib import stride_tricks
from numpy.lib.stride_tricks import as_strided

import ndarray_layout as nd
from ndarray_layout import Layout
from ndarray_layout._sharing import Part, share_byte

LIMIT = 2**63 - 1

SKIPPED = {
    "test_writeable": "views of `as_strided`, which these are made by, can't be set writeable again",
    "test_may_share_memory_bad_max_work": "a count of steps may be any number, and not only one of 64 bits",
    "TestSlidingWindowView.test_2d_repeated_axis": "windows along an axis twice are no call of this package",
    "TestSlidingWindowView.test_errors": "other texts; a window may be longer than its axis, and there are none then",
}

STEPS = 8
"""How many steps are taken here where NumPy counts one."""

calls = Counter()
"""How often each has stood in."""


def counted(call):
    def stand_in(*arguments, **named):
        calls[call.__name__] += 1
        return call(*arguments, **named)

    return stand_in


# ---- Overlap


def bytes_of(array):
    """The bytes of an array: a part of the memory."""
    a = np.asarray(array)
    return Part(a.__array_interface__["data"][0], (*a.shape, a.itemsize), (*a.strides, 1))


def shares_memory(a, b, max_work=None):
    shared = share_byte(bytes_of(a), bytes_of(b), 1, max_work)
    if shared is None:
        raise np.TooHardError
    return shared


def may_share_memory(a, b, max_work=None):
    if max_work in (None, 0):
        return share_byte(stretch_of(a), stretch_of(b), 1)
    return share_byte(bytes_of(a), bytes_of(b), 1, None if max_work < 0 else STEPS * max_work) is not False


def stretch_of(array):
    """All bytes from the lowest one of an array to its highest."""
    start, shape, strides = bytes_of(array)
    if 0 in shape:
        return Part(start, (0,), (1,))
    layout = Layout.over(LIMIT, shape, strides)
    highest = layout[tuple(slice(None, None, -1 if stride > 0 else 1) for stride in strides)].start
    return Part(start - layout.start, (highest + 1,), (1,))


def internal_overlap(array):
    return not nd.has_distinct_places((*array.shape, array.itemsize), (*array.strides, 1))


def solve(factors, bounds, total, **how):
    """NumPy's solution, where this package finds that there is one."""
    if how.get("require_ub_nontrivial"):
        is_solved = not nd.has_distinct_places([bound // 2 + 1 for bound in bounds], factors)
    else:
        sums = Part(0, [bound + 1 for bound in bounds], factors)
        is_solved = share_byte(sums, Part(total, (), ()), 1, None)
    solution = solve_diophantine(factors, bounds, total, **how)
    assert is_solved == (solution is not None), (factors, bounds, total, how)
    return solution


# ---- Strides


def strided(x, shape=None, strides=None, subok=False, writeable=True):
    """`as_strided` of what lies within the memory of the array."""
    owner = x
    while getattr(owner, "base", None) is not None:
        owner = owner.base
    shape, strides = x.shape if shape is None else shape, x.strides if strides is None else strides
    if isinstance(owner, np.ndarray):
        at = x.__array_interface__["data"][0] - owner.__array_interface__["data"][0]
        assert nd.lay_over(shape, strides, itemsize=x.itemsize, nbytes=owner.nbytes, offset=at) == at
    return as_strided(x, shape, strides, subok, writeable)


def broadcast_to(array, shape, subok, readonly):
    """A negative length is an `OverflowError` here, and a `ValueError` of NumPy."""
    a = np.array(array, copy=False, subok=subok)
    shape = tuple(shape) if np.iterable(shape) else (shape,)
    try:
        strides = nd.broadcast(a.shape, a.strides, shape)
    except OverflowError as error:
        raise ValueError(str(error)) from None
    warns = not readonly and a.flags._writeable_no_warn
    view = as_strided(a, shape, strides, subok, writeable=warns)
    if warns:
        view.flags._warn_on_write = True
    return view


def broadcast_shape(*arrays):
    return reduce(nd.broadcast_shapes, map(np.shape, arrays), ())


def sliding_window_view(x, window_shape, axis=None, *, subok=False, writeable=False):
    a = np.array(x, copy=False, subok=subok)
    lens = tuple(window_shape) if np.iterable(window_shape) else (window_shape,)
    axes = tuple(axis) if np.iterable(axis) else range(len(lens)) if axis is None else (axis,)
    window = [1] * a.ndim if axis is not None else list(lens)
    for number, length in zip(axes, lens):
        window[number] = length
    layout = nd.windows(a.shape, a.strides, window)
    kept = [*range(a.ndim), *(a.ndim + number for number in axes)]
    shape, strides = ([numbers[number] for number in kept] for numbers in layout)
    return as_strided(a, shape, strides, subok, writeable)


OVERLAP = {
    "shares_memory": shares_memory,
    "may_share_memory": may_share_memory,
    "internal_overlap": internal_overlap,
    "solve_diophantine": solve,
}
STRIDES = {
    "as_strided": strided,
    "_broadcast_to": broadcast_to,
    "_broadcast_shape": broadcast_shape,
    "sliding_window_view": sliding_window_view,
}


class NumpysOwn(unittest.TestCase):
    def run_tests(self, module, places, stand_ins):
        """Runs the tests of a module while calls stand in for names of some places; says how many pass."""
        tests, passed, without = dict(self.named_tests(module)), 0, 0
        for place in (module, *places):
            for name, call in stand_ins.items():
                if hasattr(place, name):
                    patch = mock.patch.object(place, name, counted(call))
                    patch.start()
                    self.addCleanup(patch.stop)
        for name, test in tests.items():
            before = sum(calls.values())
            with self.subTest(name), warnings.catch_warnings():
                warnings.simplefilter("ignore", DeprecationWarning)
                if name in SKIPPED:
                    self.assertRaises((Exception, pytest.fail.Exception), test)
                else:
                    test()
                    passed += 1
                    without += sum(calls.values()) == before
        missing = [call.__name__ for call in stand_ins.values() if not calls[call.__name__]]
        self.assertEqual(missing, [], "these never stood in")
        print(f"{module.__name__}: {passed} tests pass, {without} of them without a call that stands in")

    def named_tests(self, module):
        for name, found in vars(module).items():
            if name.startswith("Test"):
                parts = [part for part in dir(found) if part.startswith("test_")]
                yield from ((f"{name}.{part}", getattr(found(), part)) for part in parts)
            elif name.startswith("test_"):
                yield name, found

    def test_overlap(self):
        self.run_tests(importlib.import_module("numpy.core.tests.test_mem_overlap"), [np], OVERLAP)

    def test_strides(self):
        self.run_tests(importlib.import_module("numpy.lib.tests.test_stride_tricks"), [stride_tricks], STRIDES)


if __name__ == "__main__":
    unittest.main()
