//! Arrays that write items.

use crate::{NUMBERS, ROWS, items, lists, rows_mut, two_rows};
use ndarray_layout::CanIndexCheckMode::ReadOnly;
use ndarray_layout::ErrorKind::{OutOfBounds, Unsupported};
use ndarray_layout::{ArrayView, ArrayViewMut, Axis, ErrorKind, Fit, Ix1, Ix2, Ix3, Lengths, Order};
use ndarray_layout::{ShapeBuilder, Strided, s, unsigned};

#[test]
fn an_item_is_set_at_an_index_and_at_no_other() {
    let mut numbers = NUMBERS;
    let mut rows = rows_mut(&mut numbers);
    assert!(rows.set(&Ix2(1, 0), 30));
    assert!(!rows.set(&Ix2(2, 0), 31));
    assert_eq!((rows.get(&Ix2(1, 0)), rows.get(&Ix2(0, 3))), (Some(&30), None));
    assert_eq!(numbers, [0, 1, 2, 30, 4, 5, 6]);
}

/// The kind of the error of a view over items.
fn kind_over<D: Lengths>(view: Strided<D>, items: &mut [u8]) -> Option<ErrorKind> {
    Some(ArrayViewMut::over(view, items).err()?.kind())
}

#[test]
fn a_view_is_lent_over_items_that_it_has_to_itself() {
    let mut numbers = [7, 8, 9];
    let backwards = || Strided::new(Ix1(2), Ix1(unsigned(-1)), 1, 3, ReadOnly).unwrap();
    let shared = || Strided::new(Ix2(2, 2), Ix2(1, 1), 1, 3, ReadOnly).unwrap();
    let none = || Strided::from_parts(2, Ix1(0), Ix1(1), 1, 3, ReadOnly).unwrap();
    assert_eq!(kind_over(backwards(), &mut numbers[..1]), Some(OutOfBounds));
    assert_eq!(kind_over(none(), &mut numbers[..1]), Some(OutOfBounds));
    assert_eq!(kind_over(shared(), &mut numbers[..2]), Some(OutOfBounds));
    assert_eq!(kind_over(shared(), &mut numbers), Some(Unsupported));
    assert!(ArrayViewMut::over(none(), &mut numbers[..2]).is_ok());
    let mut two = ArrayViewMut::over(backwards(), &mut numbers).unwrap();
    assert!(two.set(&Ix1(1), 5) && !two.set(&Ix1(2), 6));
    assert_eq!(numbers, [5, 8, 9]);
}

#[test]
fn a_row_backwards_is_read_and_filled() {
    let mut numbers = NUMBERS;
    let mut row: ArrayViewMut<'_, u8, Ix1> =
        rows_mut(&mut numbers).slice_move_with(&s![0, ..;-1], Fit::Strict).unwrap();
    assert_eq!(items(&row.try_view().unwrap()), [2, 1, 0]);
    assert_eq!((row.len(), row.is_empty()), (3, false));
    row.fill(9);
    assert_eq!(numbers, [9, 9, 9, 3, 4, 5, 6]);
}

#[test]
fn an_array_is_assigned_one_of_its_shape() {
    let mut numbers = NUMBERS;
    let others = [10, 11, 12, 13, 14, 15];
    let columns = ArrayView::from_shape(ROWS, &others).unwrap().reversed_axes();
    let mut rows = rows_mut(&mut numbers);
    assert!(rows.assign(&columns).is_err());
    assert_eq!(items(&rows.view()), NUMBERS[..6]);
    let mut turned = rows.reversed_axes();
    assert!(turned.assign(&columns).is_ok());
    assert_eq!(numbers, [10, 11, 12, 13, 14, 15, 6]);
}

#[test]
fn items_are_written_through_each_step() {
    let mut numbers = NUMBERS;
    let turned = rows_mut(&mut numbers).reversed_axes();
    let mut rows = turned.permuted_axes(&[Axis(1), Axis(0)]).unwrap();
    assert!(rows.set(&Ix2(0, 2), 20));
    let mut flat: ArrayViewMut<'_, u8, Ix1> = rows.reshape(&Ix1(6), Order::RowMajor).unwrap();
    assert!(flat.set(&Ix1(0), 21));
    let pairs: ArrayViewMut<'_, u8, Ix2> = flat.exact_chunks(&Ix1(2)).unwrap();
    pairs.index_axis(Axis(0), 2).unwrap().fill(22);
    assert_eq!(numbers, [21, 1, 20, 3, 22, 22, 6]);
}

#[test]
fn items_are_replaced_and_swapped() {
    let mut numbers = NUMBERS;
    let mut rows = rows_mut(&mut numbers);
    assert_eq!(rows.replace(&Ix2(1, 0), 30), Ok(3));
    assert_eq!(rows.replace(&Ix2(2, 0), 31), Err(31));
    assert!(rows.swap(&Ix2(0, 0), &Ix2(1, 2)));
    assert!(rows.swap(&Ix2(0, 1), &Ix2(0, 1)));
    assert!(!rows.swap(&Ix2(0, 0), &Ix2(0, 3)));
    assert!(!rows.swap(&Ix2(2, 0), &Ix2(0, 0)));
    assert_eq!(numbers, [5, 1, 2, 30, 4, 0, 6]);
}

#[test]
fn items_are_mapped_in_row_major_order() {
    let mut numbers = NUMBERS;
    let mut rows = rows_mut(&mut numbers);
    assert!(rows.invert_axis(Axis(2)).is_err());
    assert!(rows.swap_axes(Axis(0), Axis(2)).is_err());
    rows.invert_axis(Axis(1)).unwrap();
    let mut count = 0;
    rows.map_in_place(|item| {
        count += 10;
        *item += count;
    });
    rows.swap_axes(Axis(0), Axis(1)).unwrap();
    assert_eq!((rows.get(&Ix2(2, 1)), rows.get(&Ix2(1, 2))), (Some(&63), None));
    assert_eq!(numbers, [30, 21, 12, 63, 54, 45, 6]);
}

#[test]
fn items_are_mapped_into_an_array_of_the_same_shape() {
    let source = two_rows();
    let (mut tripled, mut flags) = ([90; 7], [false; 6]);
    let mut columns = ArrayViewMut::from_shape(ROWS.f().unwrap(), &mut tripled).unwrap();
    source.map_into(&mut columns, |item| *item * 3).unwrap();
    assert!(source.map_into(&mut columns.reversed_axes(), |_| 7).is_err());
    assert_eq!(tripled, [0, 9, 3, 12, 6, 15, 90]);
    source.map_into(&mut rows_mut(&mut flags), |item| *item < 2).unwrap();
    assert_eq!(flags, [true, true, false, false, false, false]);
}

#[test]
fn parts_that_views_leave_are_written_and_no_other() {
    let mut numbers = NUMBERS;
    rows_mut(&mut numbers).diag().fill(70);
    rows_mut(&mut numbers).crop(&Ix2(0, 2), &Ix2(2, 3)).unwrap().fill(80);
    assert!(rows_mut(&mut numbers).crop(&Ix2(0, 2), &Ix2(2, 4)).is_none());
    let mut deeper = rows_mut(&mut numbers).insert_axis(Axis(1)).unwrap();
    assert!(deeper.set(&Ix3(1, 0, 0), 90));
    assert!(!deeper.set(&Ix3(1, 1, 0), 91));
    assert_eq!(numbers, [70, 1, 80, 90, 70, 80, 6]);
}

#[test]
fn a_list_is_set() {
    let mut lists = lists();
    let mut rows = rows_mut(&mut lists);
    assert!(rows.set(&Ix2(1, 2), vec![50]));
    assert_eq!(rows.get(&Ix2(1, 2)), Some(&vec![50]));
    assert_eq!(lists[5], [50]);
}

#[test]
fn lists_are_replaced_swapped_and_mapped() {
    let mut lists = lists();
    let mut rows = rows_mut(&mut lists);
    assert_eq!(rows.replace(&Ix2(0, 0), vec![50]), Ok(vec![0]));
    assert_eq!(rows.replace(&Ix2(2, 0), vec![51]), Err(vec![51]));
    assert!(rows.swap(&Ix2(0, 0), &Ix2(1, 2)));
    assert!(!rows.swap(&Ix2(0, 0), &Ix2(1, 3)));
    assert_eq!(items(&rows.try_view().unwrap()), [5, 1, 2, 3, 4, 50].map(|number| vec![number]));
    rows.diag().map_in_place(Vec::clear);
    assert_eq!(lists, [&[][..], &[1], &[2], &[3], &[], &[50], &[6]]);
}

#[test]
fn numbers_are_mapped_from_lists() {
    let lists = lists();
    let mut lens = [0; 6];
    let rows = ArrayView::from_shape(ROWS, &lists).unwrap();
    rows.map_into(&mut rows_mut(&mut lens), |list| list[0] + 10).unwrap();
    assert_eq!(lens, [10, 11, 12, 13, 14, 15]);
}
