//! Arrays that read items.

use crate::{NUMBERS, ROWS, items, lists, rows_mut, two_rows};
use ndarray_layout::{ArrayView, Axis, Fit, Ix1, Ix2, Ix4, Lengths, Order, ShapeBuilder, s, unsigned};

#[test]
fn slices_and_axes_leave_parts_of_the_rows() {
    let rows = two_rows();
    assert_eq!(items(&rows.slice_with::<Ix2, _>(&s![..;-1, 1..], Fit::Strict).unwrap()), [4, 5, 1, 2]);
    assert_eq!(items(&rows.index_axis(Axis(0), 1).unwrap()), [3, 4, 5]);
    assert_eq!(items(&rows.diag()), [0, 4]);
    assert_eq!(items(&rows.crop(&Ix2(0, 1), &Ix2(2, 3)).unwrap()), [1, 2, 4, 5]);
    assert!(rows.crop(&Ix2(0, 1), &Ix2(2, 4)).is_none());
    let (first, second) = rows.split_at(Axis(1), 1).unwrap();
    assert_eq!((items(&first), items(&second)), (vec![0, 3], vec![1, 2, 4, 5]));
}

#[test]
fn axes_in_another_order_read_by_columns() {
    let rows = two_rows();
    assert_eq!(items(&rows.permuted_axes(&[Axis(1), Axis(0)]).unwrap()), [0, 3, 1, 4, 2, 5]);
    assert_eq!(items(&rows.reversed_axes()), [0, 3, 1, 4, 2, 5]);
}

#[test]
fn another_shape_keeps_the_order_or_is_refused() {
    let rows = two_rows();
    assert_eq!(items(&rows.reshape(&Ix2(3, 2), Order::RowMajor).unwrap()), [0, 1, 2, 3, 4, 5]);
    assert_eq!(items(&rows.reshape(&Ix1(6), Order::RowMajor).unwrap()), [0, 1, 2, 3, 4, 5]);
    assert!(rows.reshape(&Ix2(3, 2), Order::ColumnMajor).is_err());
}

#[test]
fn a_row_is_repeated_and_gets_an_axis() {
    let row = two_rows().index_axis(Axis(0), 0).unwrap();
    assert_eq!(items(&row.broadcast(&Ix2(2, 3)).unwrap()), [0, 1, 2, 0, 1, 2]);
    assert_eq!(items(&row.insert_axis(Axis(1)).unwrap()), [0, 1, 2]);
}

#[test]
fn windows_overlap_and_chunks_do_not() {
    let rows = two_rows();
    assert_eq!(items(&rows.windows::<Ix4>(&Ix2(1, 2)).unwrap()), [0, 1, 1, 2, 3, 4, 4, 5]);
    assert_eq!(items(&rows.exact_chunks::<Ix4>(&Ix2(2, 1)).unwrap()), [0, 3, 1, 4, 2, 5]);
}

/// Two items, the second one before the first.
fn two_backwards(items: &[u8]) -> ArrayView<'_, u8, Ix1> {
    ArrayView::from_shape(2.strides(unsigned(-1)).unwrap(), items).unwrap()
}

#[test]
fn a_shape_by_its_strides_is_laid_over_items() {
    let items = [7, 8, 9];
    let two = two_backwards(&items);
    assert_eq!([two.get(&0), two.get(&1), two.get(&2)], [Some(&8), Some(&7), None]);
    assert_eq!(two.dim(), &Ix1(2));
    assert!(ArrayView::from_shape(ROWS, &items).is_err());
}

#[test]
fn a_view_is_laid_over_items_that_it_lies_within() {
    let numbers = [7, 8, 9];
    let two = two_backwards(&numbers);
    assert_eq!(items(&ArrayView::over(two.strided().duplicate().unwrap(), &numbers[..2]).unwrap()), [8, 7]);
    assert!(ArrayView::over(two.strided().duplicate().unwrap(), &numbers[..1]).is_err());
}

/// The item of an index that stands in brackets.
fn indexed<D: Lengths>(array: &ArrayView<'_, u8, D>, index: D) -> Option<u8> {
    array.get(&index)?;
    Some(array[index])
}

#[test]
fn brackets_give_the_item_of_an_index() {
    let rows = two_rows();
    assert_eq!((indexed(&rows, Ix2(1, 0)), indexed(&rows, Ix2(2, 0))), (Some(3), None));
    assert_eq!(indexed(&rows.reversed_axes(), Ix2(2, 1)), Some(5));
}

#[test]
fn brackets_give_an_item_that_was_written() {
    let mut numbers = NUMBERS;
    let mut rows = rows_mut(&mut numbers);
    assert!(rows.set(&Ix2(1, 0), 30));
    assert_eq!((rows.get(&Ix2(1, 0)), rows[Ix2(1, 0)]), (Some(&30), 30));
}

#[test]
fn lists_are_lent() {
    let lists = lists();
    let rows = ArrayView::from_shape(ROWS, &lists).unwrap();
    assert_eq!((rows.get(&Ix2(1, 1)), &rows[Ix2(1, 1)]), (Some(&vec![4]), &vec![4]));
    assert_eq!(items(&rows.reversed_axes()), [0, 3, 1, 4, 2, 5].map(|number| vec![number]));
}
