"""Dask stores two arrays into regions of a Zarr array: where no two of their blocks have a part of one chunk.

Dask writes each block of an array on its own, and who writes a part of a chunk reads it, changes it and writes it back.
So two blocks of one array may overwrite each other, though no two regions have a part of one chunk.

    PYTHONPATH=.. python3 dask_blocks.py
"""

import tempfile

import dask.array as da
import zarr

import ndarray_layout as nd

SHAPE, CHUNKS = (960, 40), (40, 20)
REGIONS = [(slice(0, 480), slice(0, 40)), (slice(480, 960), slice(0, 40))]


def store(sources, path):
    """Writes ones by four threads without a lock, and returns how many elements of the target are still 0."""
    target = zarr.open(path, mode="w", shape=SHAPE, chunks=CHUNKS, dtype="i4", fill_value=0)
    da.store(sources, [target] * 2, regions=REGIONS, lock=False, scheduler="threads", num_workers=4)
    return int((target[:] == 0).sum())


def conflict_of(sources):
    return nd.first_conflict(SHAPE, REGIONS, chunks=CHUNKS, blocks=[source.chunks for source in sources])


def main():
    print("two regions write to one chunk:", nd.first_conflict(SHAPE, REGIONS, chunks=CHUNKS))
    sources = [da.ones((480, 40), dtype="i4", chunks=(15, 40)) for _ in REGIONS]
    aligned = [source.rechunk(CHUNKS) for source in sources]
    with tempfile.TemporaryDirectory(suffix=".zarr") as path:
        print("two blocks of 15 rows do:", conflict_of(sources))
        print("elements are lost:", any(store(sources, path) for _ in range(100)))
        print("two blocks as large as a chunk do:", conflict_of(aligned))
        print("elements are lost:", any(store(aligned, path) for _ in range(10)))


if __name__ == "__main__":
    main()
