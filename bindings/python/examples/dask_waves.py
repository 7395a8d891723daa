"""Dask stores nine arrays into regions of a Zarr array in waves: the regions of a wave have no part of a common chunk.

Where regions don't end where chunks do, two neighbours have a part of one chunk. They may be written one after the other,
so `waves` groups the regions, and Dask writes one group after another.

    PYTHONPATH=.. python3 dask_waves.py
"""

import tempfile

import dask.array as da
import zarr

import ndarray_layout as nd

SHAPE, CHUNKS = (900, 60), (40, 20)
REGIONS = [(slice(row, row + 100), slice(0, 60)) for row in range(0, 900, 100)]


def open_target(path, mode):
    return zarr.open(path, mode=mode, shape=SHAPE, chunks=CHUNKS, dtype="i4", fill_value=0)


def store(sources, path, groups):
    """Stores one group after another, each by four threads without a lock, and returns how many elements are still 0."""
    target = open_target(path, "w")
    for group in groups:
        some = [sources[position] for position in group]
        regions = [REGIONS[position] for position in group]
        da.store(some, [target] * len(group), regions=regions, lock=False, scheduler="threads", num_workers=4)
    return int((target[:] == 0).sum())


def main():
    # (one block for each region: Dask writes each block on its own)
    sources = [da.full((100, 60), number, dtype="i4", chunks=(100, 60)) for number in range(1, 10)]
    blocks = [source.chunks for source in sources]
    print("two regions write to one chunk:", nd.first_conflict(SHAPE, REGIONS, CHUNKS, blocks))
    waves = nd.waves(SHAPE, REGIONS, CHUNKS, blocks)
    print("waves:", waves)
    with tempfile.TemporaryDirectory(suffix=".zarr") as path:
        print("elements are lost at once:", any(store(sources, path, [range(9)]) for _ in range(200)))
        print("elements are lost in waves:", any(store(sources, path, waves) for _ in range(20)))
        rows = open_target(path, "r")[:, 0].tolist()
    print("stored:", rows == [row // 100 + 1 for row in range(900)])
    print("region 1 touches the chunks", nd.chunks_of(SHAPE, REGIONS[1], CHUNKS), "of", nd.aligned(SHAPE, REGIONS[1], CHUNKS))


if __name__ == "__main__":
    main()
