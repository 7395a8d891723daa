//! The items of parts from both ends, beside a list.

use crate::model::Picked;
use crate::rows_mut;
use ndarray_layout::{ArrayViewMut, Axis, Ix0, Ix1, Ix2, LayoutError, Lengths, OwnedArray, Row, ShapeBuilder, s};
use std::collections::VecDeque;
use std::fmt::Debug;

/// Asserts that a row has the items that are expected at one end, and that there is none where no item is expected.
fn comes_as_row<T: PartialEq + Debug>(
    row: Option<ArrayViewMut<'_, T, Ix1>>,
    expected: &mut VecDeque<T>,
    at_front: bool,
) {
    let come: Vec<&mut T> = row.into_iter().flatten().collect();
    assert_eq!(come.is_empty(), expected.is_empty());
    let after = expected.split_off(if at_front { come.len() } else { expected.len() - come.len() });
    let next = if at_front { std::mem::replace(expected, after) } else { after };
    assert!(come.iter().map(|item| &**item).eq(&next), "{come:?} {next:?}");
}

/// Asserts that a part has the items of its places, in this order from both ends, by calls that a number chooses.
pub fn iterates<T: PartialEq + Debug, E: Lengths>(
    part: ArrayViewMut<'_, T, E>,
    picked: &Picked,
    item: impl Fn(usize) -> T,
    seed: usize,
) {
    let mut expected: VecDeque<T> = picked.places.iter().map(|place| item(*place)).collect();
    let (mut items, mut seed) = (part.into_iter(), seed);
    loop {
        assert_eq!((items.len(), items.size_hint()), (expected.len(), (expected.len(), Some(expected.len()))));
        if seed % 11 == 3 {
            let at_front = seed % 2 == 0;
            let row = if at_front { items.next_row() } else { items.next_row_back() };
            comes_as_row(row, &mut expected, at_front);
            seed = (seed * 75 + 74) % 65_537;
            continue;
        }
        let (come, next) = match seed % 7 {
            0..3 => (items.next(), expected.pop_front()),
            3 | 4 => (items.next_back(), expected.pop_back()),
            5 => {
                let skipped = seed / 7 % 9;
                expected.drain(..skipped.min(expected.len()));
                (items.nth(skipped), expected.pop_front())
            }
            _ if seed % 5 == 0 => break,
            _ => (items.next(), expected.pop_front()),
        };
        assert_eq!(come.as_deref(), next.as_ref(), "{picked:?}");
        if come.is_none() {
            assert!(items.next().is_none() && items.next_back().is_none());
            return;
        }
        seed = (seed * 75 + 74) % 65_537;
    }
    let mut left = Vec::new();
    match seed % 3 {
        0 => items.for_each(|come| left.push(come)),
        1 => {
            for come in items {
                left.push(come);
            }
        }
        _ => {
            items.rev().for_each(|come| left.push(come));
            left.reverse();
        }
    }
    assert!(left.into_iter().eq(&mut expected), "{picked:?}");
}

#[test]
fn items_are_written_in_row_major_order() -> Result<(), LayoutError> {
    let mut items = [0; 7];
    let turned = ArrayViewMut::from_shape(Ix2(2, 3), &mut items)?.reversed_axes();
    let mut part = turned.slice_move(s![..;-1, ..])?;
    part.iter_mut().zip(1..).for_each(|(item, number)| *item = number);
    for item in &mut part {
        *item *= 10;
    }
    assert_eq!((&part).into_iter().copied().collect::<Vec<i32>>(), [10, 20, 30, 40, 50, 60]);
    assert_eq!(format!("{:?}", part.iter_mut()), "IterMut { left: 6, .. }");
    assert_eq!(part.iter_mut().last(), Some(&mut 60));
    assert_eq!((part.iter_mut().count(), part.into_iter().nth(2)), (6, Some(&mut 30)));
    assert_eq!(items, [50, 30, 10, 60, 40, 20, 0]);
    let mut none: [u8; 0] = [];
    assert!(ArrayViewMut::from_shape(Ix2(0, 3), &mut none)?.into_iter().next_back().is_none());
    assert_eq!(ArrayViewMut::from_shape(Ix0(), &mut [7])?.into_iter().next_back(), Some(&mut 7));
    Ok(())
}

/// Two rows of two items, with a spare one between them, as a part.
fn table(items: &mut [i32; 5]) -> Result<ArrayViewMut<'_, i32, Ix2>, LayoutError> {
    ArrayViewMut::from_shape(Ix2(2, 2).strides(Ix2(3, 1))?, items)
}

#[test]
fn lists_are_written_in_each_layout() -> Result<(), LayoutError> {
    let mut lists = crate::lists();
    let mut part = rows_mut(&mut lists);
    part.invert_axis(Axis(0))?;
    part.iter_mut().for_each(|list| list.push(10));
    part.invert_axis(Axis(1))?;
    part.iter_mut().rev().zip(11..).for_each(|(list, number)| list.push(number));
    let expected: [&[u8]; 7] =
        [&[0, 10, 11], &[1, 10, 12], &[2, 10, 13], &[3, 10, 14], &[4, 10, 15], &[5, 10, 16], &[6]];
    assert_eq!(lists, expected);
    let mut array = OwnedArray::from_exact_vec(Ix2(2, 3), lists[..6].to_vec())?;
    for list in &mut array {
        list.truncate(1);
    }
    assert_eq!(array.into_stored().concat(), [0, 1, 2, 3, 4, 5]);
    let mut left = rows_mut(&mut lists).reversed_axes().into_iter();
    assert_eq!(
        (left.nth(1).map(|list| list[0]), left.next_back().map(|list| list[0]), left.len()),
        (Some(3), Some(5), 3)
    );
    assert_eq!(left.map(|list| list[0]).collect::<Vec<_>>(), [1, 4, 2]);
    Ok(())
}

#[test]
fn rows_of_items_are_parts_of_their_own() -> Result<(), LayoutError> {
    let (mut whole, mut items) = ([0; 6], [5, 6, 7, 8, 9]);
    let mut left = ArrayViewMut::from_shape(Ix2(2, 3), &mut whole)?.into_items();
    assert_eq!(left.next_row().map(|row| row.len()), Some(6));
    assert!(left.next_row().is_none() && left.next_row_back().is_none());
    let mut left = table(&mut items)?.into_items();
    assert_eq!(left.next(), Some(&mut 5));
    let (mut row, mut other) = (left.next_row().unwrap(), left.next_row().unwrap());
    (row[0], other[1]) = (11, 12);
    assert_eq!((row.len(), other.len(), other[0]), (1, 2, 8));
    let mut left = table(&mut items)?.into_items();
    assert_eq!(left.next_back(), Some(&mut 12));
    let (last, first) = (left.next_row_back().unwrap(), left.next_row_back().unwrap());
    assert_eq!((last.into_slice().unwrap(), first.into_slice().unwrap()), (&mut [8][..], &mut [5, 11][..]));
    assert_eq!(items, [5, 11, 7, 8, 12]);
    Ok(())
}

#[test]
fn a_row_is_a_layout_of_one_axis() {
    let layout = Row { start: 7, stride: -3, len: 3 }.layout();
    assert_eq!((layout.start(), layout.dim().slice()), (7, &[3][..]));
    assert_eq!([0, 1, 2, 3].map(|at| layout.place(&at)), [Some(7), Some(4), Some(1), None]);
}
