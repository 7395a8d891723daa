"""Dask stores four arrays into regions of one, by four threads without a lock: where no two regions share an element.

    PYTHONPATH=.. python3 dask_store.py
"""

import dask.array as da
import numpy as np

import ndarray_layout as nd


def store(sources, target, regions):
    """`dask.array.store` without a lock. Raises `ValueError` where two regions share an element."""
    conflict = nd.first_conflict(target.shape, regions)
    if conflict is not None:
        one, other = conflict
        raise ValueError(f"regions {one} and {other} share an element: {regions[one]}, {regions[other]}")
    da.store(sources, [target] * len(sources), regions=regions, lock=False, scheduler="threads", num_workers=4)


def main():
    sources = [da.full((300, 500), number, chunks=(100, 100)) for number in range(1, 5)]
    target = np.zeros((600, 1000), int)

    every_other = [(slice(row, None, 2), slice(column, None, 2)) for row in (0, 1) for column in (0, 1)]
    store(sources, target, every_other)
    print("stored:", [int(target[region].sum()) for region in every_other], target[:2, :2].tolist())

    shifted = [*every_other[:3], (slice(300, 600), slice(500, 1000))]
    try:
        store(sources, target, shifted)
    except ValueError as error:
        print("refused:", error)


if __name__ == "__main__":
    main()
