//! Rows, columns and the lanes of any axis, to be read and to be written.

use crate::{NUMBERS, kind, owned, rows, rows_mut, texts};
use ndarray_layout::ErrorKind::OutOfBounds;
use ndarray_layout::{ArrayView, ArrayViewMut, Axis, Ix3, IxDyn, LentRow, s};

#[test]
fn a_row_and_a_column_are_lent() {
    let (mut numbers, texts) = (NUMBERS, texts());
    let array = rows(&texts);
    assert_eq!((array.row(1).unwrap().as_slice(), kind(array.row(2))), (Some(&texts[3..6]), Some(OutOfBounds)));
    assert_eq!(
        (array.column(2).unwrap().to_vec().unwrap().concat(), kind(array.column(3))),
        ("25".into(), Some(OutOfBounds))
    );
    let mut array = rows_mut(&mut numbers);
    array.row_mut(0).unwrap().fill(9);
    array.column_mut(1).unwrap()[1] = 8;
    assert_eq!((kind(array.row_mut(2)), kind(array.column_mut(3))), (Some(OutOfBounds), Some(OutOfBounds)));
    assert_eq!((array.row(0).unwrap().len(), array.column(1).unwrap().last()), (3, Some(&8)));
    assert!(array.slice_mut(s![.., ..2]).unwrap().is_square());
    let mut array = owned(numbers.to_vec());
    array.row_mut(1).unwrap()[2] = 7;
    array.column_mut(0).unwrap().fill(6);
    assert_eq!((array.row(1).unwrap().last(), array.column(0).unwrap().first()), (Some(&7), Some(&6)));
    assert_eq!(array.into_stored(), [6, 9, 9, 6, 8, 7, 6]);
}

/// The items of a row.
fn items<T: Clone>(row: LentRow<'_, T>) -> Vec<T> {
    row.into_iter().cloned().collect()
}

#[test]
fn rows_are_iterated_from_both_ends() {
    let (mut numbers, texts) = (NUMBERS, texts());
    let mut left = rows(&texts).into_rows();
    assert_eq!((left.len(), format!("{left:?}")), (2, "IntoRows { left: 2, .. }".into()));
    assert_eq!(
        (left.next_back().map(items), left.next().map(items)),
        (Some(texts[3..6].into()), Some(texts[..3].into()))
    );
    assert!(left.next().is_none());
    assert_eq!(rows(&NUMBERS).columns().map(items).collect::<Vec<_>>(), [[0, 3], [1, 4], [2, 5]]);
    assert_eq!(owned(NUMBERS.to_vec()).rows().map(items).next_back(), Some(vec![3, 4, 5]));
    let mut array = rows_mut(&mut numbers);
    assert_eq!(array.rows().map(items).next(), Some(vec![0, 1, 2]));
    for (mut row, number) in array.rows_mut().rev().zip(7..) {
        row[0] = number;
    }
    assert_eq!(format!("{:?}", array.rows_mut()), "LanesMut { left: 2, .. }");
    assert_eq!(numbers, [8, 1, 2, 7, 4, 5, 6]);
}

#[test]
fn columns_of_texts_are_lent() {
    let texts = texts();
    let array = rows(&texts);
    let joined: Vec<String> = array.lanes(Axis(0)).unwrap().map(|column| items(column).concat()).collect();
    assert_eq!(joined, ["03", "14", "25"]);
    assert!(array.columns().rev().filter_map(|column| column.into_array().get(&0)).eq(["2", "1", "0"]));
    assert!(owned(texts.clone()).lanes(Axis(1)).unwrap().map(|row| items(row).concat()).eq(["012", "345"]));
}

#[test]
fn rows_that_interleave_are_lent() {
    let mut texts = texts();
    let mut array = rows_mut(&mut texts);
    array.lanes_mut(Axis(0)).unwrap().zip(["x", "y", "z"]).for_each(|(mut column, letter)| column[1].push_str(letter));
    assert_eq!((kind(array.lanes_mut(Axis(2))), kind(array.lanes(Axis(2)))), (Some(OutOfBounds), Some(OutOfBounds)));
    array.invert_axis(Axis(0)).unwrap();
    for (mut row, letter) in array.rows_mut().zip(["a", "b"]) {
        row.iter_mut().for_each(|text| text.push_str(letter));
    }
    assert_eq!(texts, ["0b", "1b", "2b", "3xa", "4ya", "5za", "6"]);
}

#[test]
fn lanes_of_each_axis_come_in_the_order_of_the_others() {
    let mut numbers: Vec<usize> = (0..24).collect();
    let array = ArrayView::from_shape((2, 3, 4), &numbers).unwrap();
    let lanes = |axis| array.view().into_lanes(Axis(axis)).unwrap().map(items);
    assert!(lanes(0).eq((0..12).map(|first| vec![first, first + 12])));
    assert!(lanes(1).eq([0, 1, 2, 3, 12, 13, 14, 15].map(|first| vec![first, first + 4, first + 8])));
    assert!(lanes(2).eq(numbers.chunks(4)));
    assert_eq!(kind(array.view().into_lanes(Axis(3))), Some(OutOfBounds));

    let array = ArrayView::from_shape(IxDyn(&[2, 1, 3, 2, 2]), &numbers).unwrap();
    let firsts = [0, 1, 2, 3, 12, 13, 14, 15];
    assert!(array.lanes(Axis(2)).unwrap().map(items).eq(firsts.map(|first| vec![first, first + 4, first + 8])));
    assert_eq!((array.lanes(Axis(1)).unwrap().len(), kind(array.lanes(Axis(5)))), (24, Some(OutOfBounds)));

    let mut array = ArrayViewMut::from_shape((2, 3, 4), &mut numbers).unwrap();
    array.view_mut().into_lanes(Axis(1)).unwrap().for_each(|mut lane| lane[2] = lane[0]);
    assert!(array.rows().map(items).skip(2).step_by(3).flatten().eq(firsts));
    assert_eq!(kind(array.into_lanes(Axis(3))), Some(OutOfBounds));
}

#[test]
fn an_axis_without_coordinates_has_no_lanes() {
    let mut none = [0u8; 0];
    let array = ArrayView::from_shape(Ix3(2, 0, 3), &none).unwrap();
    assert_eq!([0, 1, 2].map(|axis| array.lanes(Axis(axis)).unwrap().count()), [0; 3]);
    let mut array = ArrayViewMut::from_shape(Ix3(2, 0, 3), &mut none).unwrap();
    assert_eq!([0, 1, 2].map(|axis| array.lanes_mut(Axis(axis)).unwrap().count()), [0; 3]);
}
