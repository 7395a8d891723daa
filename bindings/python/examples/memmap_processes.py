"""Four processes write parts of one file that NumPy maps, without a lock: where no two parts share an element.

    PYTHONPATH=.. python3 memmap_processes.py
"""

import multiprocessing
import os
import tempfile

import numpy as np

import ndarray_layout as nd

SHAPE = (480, 640)


def add(path, key, number):
    np.memmap(path, np.int64, "r+", shape=SHAPE)[key] += number


def add_all(path, keys):
    """Adds the number of each part to its elements. Raises `ValueError` where two parts share an element."""
    conflict = nd.first_conflict(SHAPE, keys)
    if conflict is not None:
        raise ValueError("parts {} and {} share an element".format(*conflict))
    with multiprocessing.Pool(4) as pool:
        pool.starmap(add, [(path, key, number) for number, key in enumerate(keys, 1)])


def main():
    with tempfile.TemporaryDirectory() as folder:
        path = os.path.join(folder, "image")
        image = np.memmap(path, np.int64, "w+", shape=SHAPE)

        stripes = [(..., slice(first, None, -8)) for first in range(-1, -9, -1)]
        add_all(path, stripes)
        print("added:", image[0, :9].tolist(), int(image.sum()))

        try:
            add_all(path, [*stripes[:7], (slice(100, 200), slice(5, None, 6))])
        except ValueError as error:
            print("refused:", error)
        print("unchanged:", int(image.sum()))


if __name__ == "__main__":
    main()
