//! Arrays at the coordinates of an axis, to be read and to be written.

use crate::{NUMBERS, kind, owned, rows, rows_mut, texts};
use ndarray_layout::CanIndexCheckMode::OwnedMutable;
use ndarray_layout::ErrorKind::OutOfBounds;
use ndarray_layout::{ArrayView, ArrayViewMut, Axis, Ix1, Ix3, IxDyn, Strided};

#[test]
fn arrays_of_an_axis_are_read() {
    let (mut numbers, texts) = (NUMBERS, texts());
    let array = rows(&texts);
    let columns: Vec<String> =
        array.axis_iter(Axis(1)).unwrap().map(|column| column.to_vec().unwrap().concat()).collect();
    assert_eq!(
        (columns, kind(array.axis_iter(Axis(2)))),
        (vec!["03".into(), "14".into(), "25".into()], Some(OutOfBounds))
    );
    assert_eq!(array.outer_iter().rev().filter_map(|row| row.first()).collect::<Vec<_>>(), ["3", "0"]);
    assert_eq!(format!("{:?}", array.outer_iter()), "Arrays { left: 2, .. }");
    assert_eq!(ArrayView::from_shape(Ix1(6), &NUMBERS).unwrap().outer_iter().len(), 6);
    assert_eq!(owned(texts.clone()).outer_iter().nth(1).and_then(|row| row.last().cloned()), Some("5".to_string()));
    assert_eq!(owned(NUMBERS.to_vec()).index_axis(Axis(1), 2).unwrap().to_vec().unwrap(), [2, 5]);
    assert_eq!(rows_mut(&mut numbers).axis_iter(Axis(0)).unwrap().len(), 2);
}

#[test]
fn rows_of_an_axis_are_mapped() {
    let (mut numbers, texts) = (NUMBERS, texts());
    let joined = rows(&texts).map_axis(Axis(0), |column| column.to_vec().unwrap().concat()).unwrap();
    assert_eq!(joined.into_stored(), ["03", "14", "25"]);
    let array = rows_mut(&mut numbers);
    assert_eq!(array.map_axis(Axis(1), |row| row.into_iter().sum::<u8>()).unwrap().into_stored(), [3, 12]);
    assert_eq!(kind(array.map_axis(Axis(2), |_| ())), Some(OutOfBounds));
    let cube = ArrayView::from_shape(Ix3(2, 1, 3), &NUMBERS).unwrap();
    assert_eq!(cube.map_axis(Axis(1), |line| line[0]).unwrap(), rows(&NUMBERS));
    let none = ArrayView::from_shape(ndarray_layout::Ix2(0, 3), &NUMBERS).unwrap();
    assert_eq!(none.map_axis(Axis(0), |column| column.len()).unwrap().into_stored(), [0; 3]);
    assert!(none.map_axis(Axis(1), |_| ()).unwrap().is_empty());
}

/// Two by none by three, by strides of 9, 3 and 1 from place 1, over twenty items.
fn without_items() -> Strided<Ix3> {
    Strided::from_parts(1, Ix3(2, 0, 3), Ix3(9, 3, 1), 1, 20, OwnedMutable).expect("a view of twenty items")
}

#[test]
fn arrays_without_items_are_those_of_index_axis() {
    let mut items = [0_u8; 20];
    for axis in [Axis(0), Axis(2)] {
        let whole = ArrayView::over(without_items(), &items).unwrap();
        let read: Vec<_> = whole.axis_iter(axis).unwrap().map(|part| *part.strided()).collect();
        let expected = |at| whole.index_axis(axis, at).map(|part| *part.strided()).unwrap();
        assert_eq!(read, (0..whole.shape()[axis.index()]).map(expected).collect::<Vec<_>>());
        let mut lent = ArrayViewMut::over(without_items(), &mut items).unwrap();
        let written: Vec<_> = lent.axis_iter_mut(axis).unwrap().collect();
        assert_eq!(written.len(), read.len());
        assert!(written.iter().zip(&read).all(|(part, view)| part.is_empty() && part.dim() == view.dim()));
    }
}

#[test]
fn a_line_without_items_lies_as_a_list_of_none() {
    let none = ArrayView::over(without_items(), &[0_u8; 20]).unwrap();
    let lines =
        none.map_axis(Axis(1), |line| (line.strided().start(), line.strided().strides()[0], line.len())).unwrap();
    let list = ArrayView::<u8, Ix1>::from_shape(Ix1(0), &[]).unwrap();
    assert_eq!((list.strided().start(), list.strided().strides()[0], list.len()), (0, 0, 0));
    assert_eq!(lines.into_stored(), [(0, 0, 0); 6]);
}

#[test]
#[should_panic = "an array without axes has no outer arrays"]
fn an_array_without_axes_has_no_outer_arrays() {
    let _ = ArrayView::from_shape(IxDyn(&[]), &NUMBERS).unwrap().outer_iter();
}

#[test]
fn arrays_of_an_axis_are_written() {
    let mut texts = texts();
    let mut array = rows_mut(&mut texts);
    for (mut column, letter) in array.axis_iter_mut(Axis(1)).unwrap().rev().zip(["x", "y"]) {
        column[1].push_str(letter);
    }
    assert_eq!(kind(array.axis_iter_mut(Axis(2))), Some(OutOfBounds));
    for (mut row, letter) in array.outer_iter_mut().unwrap().zip(["a", "b"]) {
        row.iter_mut().for_each(|text| text.push_str(letter));
    }
    assert_eq!(format!("{:?}", array.axis_iter_mut(Axis(0)).unwrap()), "Parts { left: 2, .. }");
    array.index_axis_mut(Axis(1), 0).unwrap().iter_mut().for_each(String::clear);
    assert_eq!(texts, ["", "1a", "2a", "", "4yb", "5xb", "6"]);
    let mut array = owned(NUMBERS.to_vec());
    array.outer_iter_mut().unwrap().rev().zip(7..).for_each(|(mut row, number)| row.fill(number));
    array.index_axis_mut(Axis(1), 1).unwrap().fill(0);
    assert_eq!(array.into_stored(), [8, 0, 8, 7, 0, 7, 6]);
}
