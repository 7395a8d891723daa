//! The numbers of a dimension by their positions, from either end, read and written by index.

use ndarray_layout::{Forward, Ix4, IxDyn, Lengths, Reverse, Sequence, SequenceMut, item};

fn assert_read(items: impl Sequence, numbers: &[usize]) {
    assert_eq!(items.len(), numbers.len());
    for (k, number) in numbers.iter().enumerate() {
        assert_eq!((items[k], item(&items, k)), (*number, *number));
    }
}

/// Writes a number by index at a position, and another one by `set` at the next.
fn write(mut items: impl SequenceMut, k: usize, [first, second]: [usize; 2]) {
    items[k] = first;
    items.set(k + 1, second);
}

/// Asserts that the numbers 2, 2, 3, 2 are read from either end, and written where they are read.
fn assert_read_and_written<D: Lengths>(mut dim: D) {
    assert_read(Forward(&dim), &[2, 2, 3, 2]);
    assert_read(Reverse(&dim), &[2, 3, 2, 2]);
    assert_read(Forward(&mut dim), &[2, 2, 3, 2]);
    assert_read(Reverse(&mut dim), &[2, 3, 2, 2]);
    assert_read(Forward(dim.slice()), &[2, 2, 3, 2]);
    assert_read(Reverse(dim.slice()), &[2, 3, 2, 2]);
    write(Forward(&mut dim), 1, [5, 6]);
    assert_eq!(dim.slice(), [2, 5, 6, 2]);
    write(Reverse(&mut dim), 0, [7, 8]);
    assert_eq!(dim.slice(), [2, 5, 8, 7]);
}

#[test]
fn numbers_from_either_end() {
    assert_read_and_written(Ix4(2, 2, 3, 2));
    assert_read_and_written(IxDyn(&[2, 2, 3, 2]));
}
