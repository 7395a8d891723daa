//! Arrays that own their items, and lend or change them.

use crate::{NUMBERS, ROWS, items, lists};
use ndarray_layout::{Ix2, OwnedArray, s};

fn owned_numbers() -> OwnedArray<u8, Ix2> {
    OwnedArray::from_shape_vec(ROWS, NUMBERS.to_vec()).unwrap()
}

fn owned_lists() -> OwnedArray<Vec<u8>, Ix2> {
    OwnedArray::from_shape_vec(ROWS, lists()).unwrap_or_else(|(error, _)| panic!("{error}"))
}

#[test]
fn what_is_written_where_numbers_are_lent_is_left() {
    let mut rows = owned_numbers();
    let mut lent = rows.try_view_mut().unwrap();
    assert!(lent.set(&Ix2(0, 1), 9));
    assert_eq!(lent.len(), 6);
    assert_eq!(rows.stored(), [0, 9, 2, 3, 4, 5, 6]);
}

#[test]
fn a_number_is_written_by_its_place() {
    let mut rows = owned_numbers();
    let (view, numbers) = rows.parts_mut();
    numbers[view.place(&Ix2(1, 1)).unwrap()] = 40;
    assert_eq!(rows.stored(), [0, 1, 2, 3, 40, 5, 6]);
}

#[test]
fn the_numbers_of_a_slice_are_mapped() {
    let mut rows = owned_numbers();
    assert!(rows.map_in_place(&s![2, 1..], |item| *item = 9).is_err());
    assert_eq!(rows.stored(), NUMBERS);
    let mut count = 0;
    let mapped = rows.map_in_place(&s![1.., 1..], |item| {
        count += 20;
        *item += count;
    });
    assert_eq!(mapped, Ok(()));
    assert_eq!(rows.stored(), [0, 1, 2, 3, 24, 45, 6]);
}

#[test]
fn lists_are_set_swapped_and_mapped() {
    let mut rows = owned_lists();
    assert!(rows.set(&Ix2(0, 1), vec![60]));
    assert!(!rows.set(&Ix2(0, 3), vec![61]));
    assert!(rows.try_view_mut().unwrap().swap(&Ix2(0, 1), &Ix2(1, 1)));
    rows.map_in_place(&s![0, 1..], Vec::clear).unwrap();
    assert_eq!(rows.len(), 6);
    let expected = [&[0][..], &[], &[], &[3], &[60], &[5]];
    assert_eq!(items(&rows.try_view().unwrap()), expected);
    let stored = rows.into_stored();
    assert_eq!((&stored[..6], &stored[6..]), (&expected.map(Vec::from)[..], &[vec![6]][..]));
}

#[test]
fn a_list_is_replaced_by_its_place() {
    let mut rows = owned_lists();
    let (view, lists) = rows.parts_mut();
    lists[view.place(&Ix2(1, 1)).unwrap()] = vec![40];
    assert_eq!(rows.into_stored()[4], [40]);
}

#[test]
fn lists_come_back_where_they_are_too_few() {
    let (_error, back) = OwnedArray::from_shape_vec(Ix2(2, 4), lists()).err().unwrap();
    assert_eq!(back, lists());
}
