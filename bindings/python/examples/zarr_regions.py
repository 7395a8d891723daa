"""Four processes write regions of a Zarr array: where no two regions have a part of one chunk.

Who writes a part of a chunk reads it, changes it and writes it back. So two regions without a common element may still
overwrite each other.

    PYTHONPATH=.. python3 zarr_regions.py
"""

import multiprocessing
import tempfile

import zarr

import ndarray_layout as nd


def write(path, region, number):
    zarr.open(path, mode="r+")[region] = number


def write_all(path, regions):
    """Writes the number of each region into it. Raises `ValueError` where two regions have a part of one chunk."""
    array = zarr.open(path, mode="r")
    conflict = nd.first_conflict(array.shape, regions, chunks=array.chunks)
    if conflict is not None:
        raise ValueError("regions {} and {} write to one chunk".format(*conflict))
    with multiprocessing.Pool(4) as pool:
        pool.starmap(write, [(path, region, number) for number, region in enumerate(regions)])


def main():
    with tempfile.TemporaryDirectory(suffix=".zarr") as path:
        zarr.open(path, mode="w", shape=(1000, 40), chunks=(40, 20), dtype="i4", fill_value=-1)

        by_chunks = [slice(row, row + 40) for row in range(0, 1000, 40)]
        write_all(path, by_chunks)
        rows = zarr.open(path, mode="r")[:]
        print("written:", all((rows[region] == number).all() for number, region in enumerate(by_chunks)))

        by_fives = [slice(row, row + 5) for row in range(0, 1000, 5)]
        print("200 regions share an element:", nd.first_conflict((1000, 40), by_fives))
        try:
            write_all(path, by_fives)
        except ValueError as error:
            print("refused:", error)


if __name__ == "__main__":
    main()
