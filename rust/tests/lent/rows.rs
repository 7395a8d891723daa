//! Rows of items that are lent, and what is folded of them.

use crate::{NUMBERS, ROWS, lists, two_rows};
use ndarray_layout::{
    ArrayView, Axis, Fit, Ix0, Ix1, Ix2, IxDyn, Lengths, LentRow, LentRows, ShapeBuilder, s, unsigned,
};

/// The items of a row, which is a slice of them or not.
fn items_of(row: LentRow<'_, u8>, is_slice: bool) -> Vec<u8> {
    let items: Vec<u8> = (0..row.len()).map(|coordinate| *row.get(coordinate).unwrap()).collect();
    assert_eq!(row.get(row.len()), None);
    assert_eq!(row.as_slice(), is_slice.then_some(&items[..]));
    items
}

/// The rows, each of which is a slice or none is, of which as many come as are said to.
fn rows_of(rows: LentRows<'_, u8>, are_slices: bool) -> Vec<Vec<u8>> {
    let len = rows.len();
    let rows: Vec<_> = rows.map(|row| items_of(row, are_slices)).collect();
    assert_eq!(rows.len(), len);
    rows
}

#[test]
fn two_rows_of_three_are_slices() {
    assert_eq!(rows_of(two_rows().rows(), true), [[0, 1, 2], [3, 4, 5]]);
}

#[test]
fn rows_of_one_item_are_slices_and_of_none_there_are_no_rows() {
    let column: ArrayView<'_, u8, Ix2> = two_rows().slice_with(&s![.., 1..2], Fit::Strict).unwrap();
    assert_eq!(rows_of(column.rows(), true), [[1], [4]]);
    let none = column.crop(&Ix2(0, 0), &Ix2(2, 0)).unwrap();
    assert!(rows_of(none.rows(), true).is_empty());
}

#[test]
fn rows_backwards_and_columns_are_no_slices() {
    let mut rows = two_rows();
    rows.invert_axis(Axis(1)).unwrap();
    assert_eq!(rows_of(rows.rows(), false), [[2, 1, 0], [5, 4, 3]]);
    rows.invert_axis(Axis(1)).unwrap();
    assert_eq!(rows_of(rows.reversed_axes().rows(), false), [[0, 3], [1, 4], [2, 5]]);
}

#[test]
fn one_item_is_a_row_until_it_is_repeated() {
    let one = ArrayView::from_shape(Ix0(), &NUMBERS).unwrap();
    assert_eq!(rows_of(one.rows(), true), [[0]]);
    assert_eq!(rows_of(one.broadcast(&Ix1(3)).unwrap().rows(), false), [[0, 0, 0]]);
}

#[test]
fn one_axis_is_a_row_which_may_be_repeated() {
    let backwards = ArrayView::from_shape(2.strides(unsigned(-1)).unwrap(), &NUMBERS).unwrap();
    assert_eq!(rows_of(backwards.rows(), false), [[1, 0]]);
    assert_eq!(rows_of(backwards.broadcast(&Ix2(2, 2)).unwrap().rows(), false), [[1, 0], [1, 0]]);
}

#[test]
fn a_type_may_leave_the_count_of_axes_open() {
    let cube = ArrayView::from_shape(IxDyn(&[2, 1, 3]), &NUMBERS).unwrap();
    assert_eq!(rows_of(cube.rows(), true), [[0, 1, 2], [3, 4, 5]]);
}

/// The digits of the items, the first one in front, folded and by a function that is called at each item.
fn digits<D: Lengths>(array: &ArrayView<'_, u8, D>) -> [u64; 2] {
    let folded = array.fold(0, |digits, item| digits * 10 + u64::from(*item));
    let mut called = 0;
    array.for_each(|item| called = called * 10 + u64::from(*item));
    [folded, called]
}

#[test]
fn items_are_folded_in_row_major_order() {
    let rows = two_rows();
    assert_eq!(digits(&rows), [12_345; 2]);
    assert_eq!(digits(&rows.index_axis(Axis(0), 1).unwrap()), [345; 2]);
    assert_eq!(digits(&rows.reversed_axes()), [31_425; 2]);
}

#[test]
fn lists_are_lent_in_rows_and_folded() {
    let lists = lists();
    let array = ArrayView::from_shape(ROWS, &lists).unwrap();
    assert_eq!(array.fold(0, |count, list| count + list.len()), 6);
    let mut called = 0;
    array.for_each(|list| called += list.len());
    assert_eq!(called, 6);
    let mut rows = array.rows();
    let second = rows.nth(1).unwrap();
    assert_eq!((second.len(), second.get(2), second.as_slice()), (3, Some(&vec![5]), Some(&lists[3..6])));
    assert!(rows.next().is_none());
}
