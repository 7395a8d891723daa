"""Calls from Python over one layout that was accepted before, each beside NumPy's over an array that lies so: the name of a row, and the
nanoseconds of both, with tabs. The least of many rounds. NumPy has no call for the first of many slices that share an element: a mask is
marked slice by slice there, until one is marked. The parts of a cube lie apart on the second axis alone, and the cube in no memory. Parts of
an image are made in the timed call, as they are written in one.

usage: doors.py ROUNDS
"""
import subprocess, sys, timeit

import ndarray_layout as nd
import numpy as np

SIDE, ROUND_S, ROUNDS = 1000, 0.02, int(sys.argv[1])
ARRAY = np.zeros((SIDE, SIDE), np.uint8)
LAYOUT = nd.Layout.over(ARRAY, ARRAY.shape, writable=True)
ODD, EVEN = (slice(1, None, 2), 3), (slice(0, None, 2), slice(None))
IMAGE = np.zeros((480, 640, 3), np.uint8)
PICTURE = nd.Layout.over(IMAGE, IMAGE.shape)
TOP_ROWS, BOTTOM_ROWS, CHUNKS = (slice(0, 240), slice(0, 640), 0), (slice(240, 480), slice(0, 640), 0), (64, 64, 3)
TOP, NUMBERS = IMAGE[:240], [np.arange(length) for length in IMAGE.shape]
CUBE = np.lib.stride_tricks.as_strided(np.zeros(1, np.uint8), (10**6,) * 3, (10**12, 10**6, 1))
ONE, OTHER = CUBE[::6, 1::4, ::9], CUBE[2::4, 0::6, 3::6]


def first_marked(shape, keys):
    marked = np.zeros(shape, bool)
    for at, key in enumerate(keys):
        if marked[key].any():
            return at
        marked[key] = True
    return None


def in_chunks(key):
    """The numbers of the chunks of a region of the image, by hand."""
    rows, columns, channel = key
    return *(slice(along.start // chunk, -(-along.stop // chunk)) for along, chunk in zip((rows, columns), CHUNKS)), channel // CHUNKS[2]


def error_of(call, *arguments):
    try:
        call(*arguments)
    except IndexError as error:
        return error


def imported(name):
    """The nanoseconds that an import takes, the least of some processes, where NumPy is imported before."""
    program = f"import numpy, time; began = time.perf_counter_ns(); import {name}; print(time.perf_counter_ns() - began)"
    return min(int(subprocess.run([sys.executable, "-c", program], capture_output=True, text=True, check=True).stdout) for _ in range(ROUNDS))


def of_many(count):
    shape, keys = (count, 8), [(row, slice(None)) for row in range(count)]
    layout = nd.Layout.over(count * 8, shape, writable=True)
    return f"first_intersection of {count:,}, a slice", lambda: layout.first_intersection(keys), lambda: first_marked(shape, keys), count


ROWS = [
    (
        "a layout, accepted",
        lambda: nd.Layout.over(SIDE * SIDE, (SIDE, SIDE), (SIDE, 1), writable=True),
        lambda: np.ndarray((SIDE, SIDE), np.uint8, ARRAY, 0, (SIDE, 1)),
        1,
    ),
    ("place", lambda: LAYOUT.place((5, 7)), lambda: np.ravel_multi_index((5, 7), (SIDE, SIDE)), 1),
    ("slice", lambda: LAYOUT[ODD], lambda: ARRAY[ODD], 1),
    ("axes in reverse", lambda: LAYOUT.T, lambda: ARRAY.T, 1),
    ("a layout of an array", lambda: nd.Layout.of(IMAGE), lambda: IMAGE.view(), 1),
    ("a layout of a part, over its base", lambda: nd.Layout.of(TOP, base=IMAGE), lambda: TOP.view(), 1),
    ("reshape", lambda: PICTURE.reshape(480, 1920), lambda: IMAGE.reshape(480, 1920), 1),
    ("squeeze", lambda: PICTURE.squeeze(), lambda: IMAGE.squeeze(), 1),
    ("diagonal", lambda: LAYOUT.diagonal(), lambda: ARRAY.diagonal(), 1),
    ("swapaxes", lambda: PICTURE.swapaxes(0, 1), lambda: IMAGE.swapaxes(0, 1), 1),
    ("ravel", lambda: PICTURE.ravel(), lambda: IMAGE.ravel(), 1),
    ("is_layout_c of an array", lambda: nd.is_layout_c(IMAGE), lambda: IMAGE.flags.c_contiguous, 1),
    ("default_strides", lambda: nd.default_strides((480, 640, 3)), lambda: np.empty((480, 640, 3), np.uint8).strides, 1),
    ("windows", lambda: PICTURE.windows((3, 3, 3)), lambda: np.lib.stride_tricks.sliding_window_view(IMAGE, (3, 3, 3)), 1),
    ("lay_over of a header", lambda: nd.lay_over((480, 640), (1920, 3), itemsize=1, nbytes=921600, offset=0), lambda: np.ndarray((480, 640), np.uint8, IMAGE, 0, (1920, 3)), 1),
    ("an error: an index out of bounds", lambda: error_of(PICTURE.__getitem__, 480), lambda: error_of(IMAGE.__getitem__, 480), 1),
    ("the chunks of a region", lambda: nd.chunks_of(IMAGE.shape, TOP_ROWS, CHUNKS), lambda: [np.unique(NUMBERS[axis][key] // chunk) for axis, (key, chunk) in enumerate(zip(TOP_ROWS, CHUNKS))], 1),
    ("slice with `...`", lambda: PICTURE[..., 0], lambda: IMAGE[..., 0], 1),
    ("slice by three bounds and steps", lambda: PICTURE[1:-1, ::2, ::-1], lambda: IMAGE[1:-1, ::2, ::-1], 1),
    ("an array of a layout", lambda: PICTURE.as_array(IMAGE), lambda: np.ndarray(IMAGE.shape, IMAGE.dtype, IMAGE, 0, IMAGE.strides), 1),
    ("two channels of an image", lambda: nd.share_element(IMAGE[..., 0], IMAGE[..., 1]), lambda: np.shares_memory(IMAGE[..., 0], IMAGE[..., 1]), 1),
    ("two halves of an image", lambda: nd.share_element(IMAGE[:240], IMAGE[240:]), lambda: np.shares_memory(IMAGE[:240], IMAGE[240:]), 1),
    ("rows by two steps of an image", lambda: nd.share_element(IMAGE[::2], IMAGE[::-3, :5]), lambda: np.shares_memory(IMAGE[::2], IMAGE[::-3, :5]), 1),
    ("two keys of an image", lambda: nd.share_element(IMAGE, (..., 0), (..., 1)), lambda: np.shares_memory(IMAGE[..., 0], IMAGE[..., 1]), 1),
    ("two parts of a cube of side 1,000,000", lambda: nd.share_element(ONE, OTHER), lambda: np.shares_memory(ONE, OTHER), 1),
    ("intersect", lambda: LAYOUT.intersects(ODD, EVEN), lambda: np.shares_memory(ARRAY[ODD], ARRAY[EVEN]), 1),
    (
        "first_conflict of two regions",
        lambda: nd.first_conflict(IMAGE.shape, [TOP_ROWS, BOTTOM_ROWS]),
        lambda: np.shares_memory(IMAGE[TOP_ROWS], IMAGE[BOTTOM_ROWS]),
        1,
    ),
    (
        "first_conflict of two regions, in chunks",
        lambda: nd.first_conflict(IMAGE.shape, [TOP_ROWS, BOTTOM_ROWS], CHUNKS),
        lambda: first_marked((8, 10, 1), map(in_chunks, [TOP_ROWS, BOTTOM_ROWS])),
        1,
    ),
    ("rows of 1000x1000, a row", lambda: list(LAYOUT.rows()), lambda: list(ARRAY), SIDE),
    *map(of_many, (10, 1000, 100_000)),
]


def ns(call, parts):
    timer = timeit.Timer(call)
    calls = max(1, int(ROUND_S / max(timer.timeit(1), 1e-7)))
    return min(timer.repeat(ROUNDS, calls)) / calls / parts * 1e9


for name, ours, theirs, parts in ROWS:
    print(name, ns(ours, parts), ns(theirs, parts), sep="\t")
print("import, after NumPy", imported("ndarray_layout"), sep="\t")
