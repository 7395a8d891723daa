//! Two parts of an array that are lent at once, along an axis and as tiles.

use crate::{NUMBERS, kind, lists, rows_mut, view_of_rows};
use ndarray_layout::CanIndexCheckMode::{OwnedMutable, ReadOnly};
use ndarray_layout::ErrorKind::{IncompatibleLayout, OutOfBounds, Unsupported};
use ndarray_layout::{ArrayViewMut, Axis, Ix1, Ix2, SplitViews, Strided, unsigned};

/// Items as two rows to be cut into tiles.
fn tile<T>(items: &mut [T]) -> ArrayViewMut<'_, T, Ix2> {
    ArrayViewMut::over(view_of_rows(), items).unwrap()
}

#[test]
fn rows_are_written_in_turn() {
    let mut numbers = NUMBERS;
    let (mut first, mut second) = rows_mut(&mut numbers).split_at(Axis(0), 1).unwrap();
    assert!(second.set(&Ix2(0, 2), 50));
    assert!(first.set(&Ix2(0, 0), 10));
    assert!(!first.set(&Ix2(1, 0), 11));
    assert_eq!(
        (first.get(&Ix2(0, 2)), second.get(&Ix2(0, 0)), second.get(&Ix2(0, 2))),
        (Some(&2), Some(&3), Some(&50))
    );
    second.fill(9);
    assert_eq!(numbers, [10, 1, 2, 9, 9, 9, 6]);
}

#[test]
fn views_that_interleave_and_parts_past_the_end_are_refused() {
    let mut numbers = NUMBERS;
    assert_eq!(kind(SplitViews::new(view_of_rows(), 7, Axis(1), 1)), Some(IncompatibleLayout));
    assert_eq!(kind(rows_mut(&mut numbers).split_at(Axis(0), 3)), Some(OutOfBounds));
    let (all, none) = rows_mut(&mut numbers).split_at(Axis(1), 3).unwrap();
    assert_eq!((all.len(), none.is_empty()), (6, true));
    assert_eq!(numbers, NUMBERS);
}

#[test]
fn the_first_part_of_an_axis_backwards_lies_above() {
    let mut numbers = [7, 8, 9];
    let backwards = Strided::new(Ix1(3), Ix1(unsigned(-1)), 1, 3, OwnedMutable).unwrap();
    let SplitViews { first, second, cut, first_is_lower } = SplitViews::new(backwards, 3, Axis(0), 1).unwrap();
    assert_eq!((cut, first_is_lower), (2, false));
    let (lower, upper) = numbers.split_at_mut(cut);
    ArrayViewMut::new(first, upper).fill(1);
    assert!(ArrayViewMut::new(second, lower).set(&Ix1(0), 2));
    assert_eq!(numbers, [7, 2, 1]);
    let (mut first, mut second) = ArrayViewMut::new(backwards, &mut numbers).split_at(Axis(0), 1).unwrap();
    first.fill(3);
    assert!(second.set(&Ix1(1), 4));
    assert_eq!(numbers, [4, 2, 3]);
}

#[test]
fn tiles_are_written_in_turn() {
    let mut numbers = NUMBERS;
    let (left, mut right) = tile(&mut numbers).split_at(Axis(1), 1).unwrap();
    let (mut above, mut below) = left.split_at(Axis(0), 1).unwrap();
    assert!(below.set(&(0, 0), 30) && right.set(&(1, 1), 50) && above.set(&(0, 0), 10));
    assert_eq!([below.set(&(1, 0), 31), below.set(&(0, 1), 32)], [false; 2]);
    assert_eq!([right.get(&(0, 1)), right.get(&(1, 1))], [Some(&2), Some(&50)]);
    assert_eq!([right.get(&(2, 0)), right.get(&(0, 2))], [None; 2]);
    assert_eq!((right.dim(), above.dim()), (&Ix2(2, 2), &Ix2(1, 1)));
    right.view_mut().index_axis(Axis(0), 0).unwrap().fill(9);
    assert_eq!(right.into_row_slices().unwrap(), [[9, 9], [4, 50]]);
    assert_eq!(numbers, [10, 9, 9, 30, 4, 50, 6]);
}

#[test]
fn columns_are_tiles_and_cuts_past_the_end_are_refused() {
    let mut numbers = NUMBERS;
    let columns = || Strided::new(Ix2(2, 3), Ix2(1, 2), 1, 7, OwnedMutable).unwrap();
    assert_eq!(
        ArrayViewMut::over(columns(), &mut numbers).unwrap().into_row_slices().unwrap(),
        [[0], [2], [4], [1], [3], [5]]
    );
    assert_eq!(ArrayViewMut::over(columns(), &mut numbers[1..6]).unwrap_err().kind(), OutOfBounds);
    let shared = Strided::new(Ix2(2, 3), Ix2(1, 1), 1, 7, ReadOnly).unwrap();
    assert_eq!(ArrayViewMut::over(shared, &mut numbers).unwrap_err().kind(), Unsupported);
    for (axis, index) in [(Axis(1), 4), (Axis(0), 3), (Axis(2), 0)] {
        assert_eq!(kind(tile(&mut numbers).split_at(axis, index)), Some(OutOfBounds));
    }
    assert_eq!(numbers, NUMBERS);
}

#[test]
fn a_tile_without_rows_keeps_its_columns() {
    let mut numbers = NUMBERS;
    let (none, _rows) = tile(&mut numbers).split_at(Axis(0), 0).unwrap();
    let (first, second) = none.split_at(Axis(1), 1).unwrap();
    assert_eq!((first.dim(), second.dim()), (&Ix2(0, 1), &Ix2(0, 2)));
    assert_eq!(kind(first.split_at(Axis(1), 2)), Some(OutOfBounds));
}

#[test]
fn lists_are_written_in_rows_and_tiles() {
    let mut lists = lists();
    let (first, mut second) = rows_mut(&mut lists).split_at(Axis(0), 1).unwrap();
    assert!(second.set(&Ix2(0, 2), vec![50]));
    assert_eq!(first.get(&Ix2(0, 2)), Some(&vec![2]));
    let (left, mut right) = tile(&mut lists).split_at(Axis(1), 1).unwrap();
    assert!(right.set(&(0, 1), vec![20]));
    assert_eq!((left.get(&(1, 0)), right.get(&(1, 1))), (Some(&vec![3]), Some(&vec![50])));
    assert_eq!((&lists[2], &lists[5]), (&vec![20], &vec![50]));
}
