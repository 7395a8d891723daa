"""What errors say of mistakes that users make, each with its text in `test_mistakes.txt`, and how much of a traceback is ours.

    python3 test_mistakes.py            compares the texts
    python3 test_mistakes.py --write    writes those that are said now: each has to be read
"""

import sys
import traceback
import unittest
from pathlib import Path
from types import SimpleNamespace

import ndarray_layout as nd

try:
    import numpy as np
except ImportError:
    np = None

TABLE = Path(__file__).with_suffix(".txt")
HEAD = "What a user mistakes, and what the error says: read by test_mistakes.py.\n\n"


def names():
    """What the mistakes of the table name."""
    a = np.zeros((4, 6), "i4")
    return {
        "nd": nd,
        "np": np,
        "Layout": nd.Layout,
        "L": nd.Layout.over(24, (4, 6)),
        "a": a,
        "windows": np.lib.stride_tricks.sliding_window_view(a, (2, 2)),
        "records": np.zeros(3, [("a", "i1"), ("b", "i4")]),
        "chunked": SimpleNamespace(shape=(4, 6), chunks=(2, 3)),  # (as an array of Dask or Zarr is)
        "series": SimpleNamespace(to_numpy=None),  # (as one of pandas is)
    }


def mistakes():
    """Each mistake with its text."""
    lines = TABLE.read_text().removeprefix(HEAD).splitlines()
    return [*zip(lines[::2], map(str.strip, lines[1::2]))]


def error_of(mistake):
    try:
        eval(mistake, names())
    except Exception as error:
        return error
    return None


def text_of(error):
    return f"{type(error).__name__}: {error}"


@unittest.skipIf(np is None, "NumPy is missing: mistakes are not compared")
class Mistakes(unittest.TestCase):
    def test_texts(self):
        table = mistakes()
        for mistake, text in table:
            with self.subTest(mistake):
                self.assertEqual(text_of(error_of(mistake)), text)
        print(f"test_texts: {len(table)} mistakes")
        self.assertGreaterEqual(len(table), 87)

    def test_at_most_one_frame_is_ours(self):
        """A traceback shows the caller's frames and at most one of the package, and no error that led to another."""
        package = str(Path(nd.__file__).parent)
        for mistake, _ in mistakes():
            with self.subTest(mistake):
                error = error_of(mistake)
                frames = [frame.name for frame in traceback.extract_tb(error.__traceback__) if frame.filename.startswith(package)]
                self.assertLessEqual(len(frames), 1)
                self.assertLessEqual("".join(traceback.format_exception(error)).count(package), 1)

    def test_frames_of_callers_stay(self):
        """Where a caller's own iterator fails, its frames are shown."""

        def lengths():
            yield 2
            raise TypeError("the caller's own")

        try:  # (`assertRaises` drops the frames)
            nd.default_strides(lengths())
        except TypeError as error:
            self.assertIn("lengths", [frame.name for frame in traceback.extract_tb(error.__traceback__)])
        else:
            self.fail("no error")

    def test_a_negative_index_is_both(self):
        for call in (lambda: nd.place(0, (2, 3), (3, 1), (0, -1)), lambda: nd.permuted_axes((2, 3), (3, 1), (0, -1))):
            with self.assertRaises(IndexError) as caught:
                call()
            self.assertIsInstance(caught.exception, OverflowError)
            self.assertEqual((caught.exception.kind, caught.exception.axis), ("OutOfBounds", 1))

    def test_chunks_by_names(self):
        """Chunks as xarray writes them: what is left out is one chunk."""
        regions = [{"y": slice(0, 3)}, {"y": slice(3, 6)}]
        self.assertEqual(nd.first_conflict((6, 6), regions, {"y": 2}, dims=("y", "x")), (0, 1))
        self.assertEqual(nd.chunks_of((6, 6), regions[1], {"y": 3}, dims=("y", "x")), (range(1, 2), range(1)))
        for wrong, dims in (({"z": 2}, ("y", "x")), ({"y": 2}, None)):
            self.assertRaises((TypeError, ValueError), nd.chunks_of, (6, 6), 0, wrong, dims=dims)

    def test_dasks_whole_axis(self):
        """-1 and `None` are the whole length of an axis."""
        for whole in (-1, None, 6, np.int64(-1)):
            self.assertEqual(nd.waves((4, 6), [(0, 0), (1, 5), (2, 3)], (2, whole)), [[0, 2], [1]])
        self.assertEqual(nd.chunks_of((0, 4), (slice(0), 3), (-1, None)), (range(0), range(1)))


if __name__ == "__main__":
    if "--write" in sys.argv:
        said = [f"{mistake}\n    {text_of(error_of(mistake))}\n" for mistake, _ in mistakes()]
        TABLE.write_text(HEAD + "".join(said))
    else:
        unittest.main()
