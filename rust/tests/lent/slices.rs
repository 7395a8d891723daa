//! Parts of an array that slices pick, lent at once.

use crate::{NUMBERS, kind, lists, rows_mut, view_of_rows};
use ndarray_layout::ErrorKind::{OutOfBounds, Unsupported};
use ndarray_layout::{ArrayViewMut, Axis, Ix6, IxDyn, LayoutError, SliceElems, SliceInfoElem, s};

/// The parts of items as two rows that slices pick.
fn parts<'a, T, S: SliceElems>(
    items: &'a mut [T],
    slices: &[S],
) -> Result<Vec<ArrayViewMut<'a, T, IxDyn>>, LayoutError> {
    rows_mut(items).multi_slice_move(slices)
}

/// The two parts of two slices.
fn both<T>(parts: Result<Vec<ArrayViewMut<'_, T, IxDyn>>, LayoutError>) -> [ArrayViewMut<'_, T, IxDyn>; 2] {
    parts.unwrap().try_into().ok().expect("two parts")
}

#[test]
fn every_second_column_and_the_one_between_are_written_in_turn() {
    let mut numbers = NUMBERS;
    let slices = [s![.., ..;2].to_vec(), s![..;-1, 1].to_vec()];
    let [mut outer, mut middle] = both(parts(&mut numbers, &slices));
    assert_eq!([outer.dim(), middle.dim()], [&IxDyn(&[2, 2]), &IxDyn(&[2])]);
    assert_eq!([outer.get(&[0, 1]), middle.get(&[0])], [Some(&2), Some(&4)]);
    assert!(outer.set(&[1, 1], 50) && middle.set(&[0], 40) && outer.set(&[0, 0], 10) && middle.set(&[1], 11));
    assert_eq!([middle.set(&[2], 9), outer.set(&[0, 2], 9)], [false; 2]);
    assert_eq!(numbers, [10, 11, 2, 3, 40, 50, 6]);
}

#[test]
fn a_tile_and_the_column_beside_it_are_parts_of_a_view() {
    let mut numbers = NUMBERS;
    let slices = [s![..;-1, 1..3].to_vec(), s![.., 0].to_vec()];
    let [tile, column] = both(ArrayViewMut::over(view_of_rows(), &mut numbers).unwrap().multi_slice_move(&slices));
    assert_eq!((tile[[0, 0]], tile[[0, 1]], column[[1]]), (4, 5, 3));
    tile.index_axis(Axis(0), 1).unwrap().fill(9);
    assert_eq!(numbers, [0, 9, 9, 3, 4, 5, 6]);
}

#[test]
fn slices_that_share_an_index_or_do_not_fit_are_refused() {
    let mut numbers = NUMBERS;
    let [first_row, third_row] = [s![0, ..], s![2, ..]].map(|row| row.to_vec());
    let first_column = s![.., 0].to_vec();
    assert_eq!(kind(parts(&mut numbers, &[&first_row[..], &first_column])), Some(Unsupported));
    assert_eq!(kind(parts(&mut numbers, &[&first_row[..], &first_row, &third_row])), Some(OutOfBounds));
    assert_eq!(numbers, NUMBERS);
}

#[test]
fn no_slice_has_no_part() {
    let mut numbers = NUMBERS;
    let no_slice: [Vec<SliceInfoElem>; 0] = [];
    assert!(parts(&mut numbers, &no_slice).unwrap().is_empty());
}

/// One block for each pair of coordinates of the two axes with several before the last two, the last pair first.
#[test]
fn ten_blocks_of_six_axes_are_filled() {
    let mut numbers = [90_u8; 10_000];
    let array = ArrayViewMut::from_shape(Ix6(2, 1, 5, 1, 10, 100), &mut numbers).unwrap();
    let slices = [9, 8, 7, 6, 5, 4, 3, 2, 1, 0].map(|block| {
        let (first, third) = (block / 5, block % 5);
        s![first..first + 1, .., third..third + 1, .., .., ..]
    });
    for (mut part, number) in array.multi_slice_move::<_, IxDyn>(&slices).unwrap().into_iter().zip((0..10).rev()) {
        part.fill(number);
    }
    let expected: Vec<u8> = (0..10).flat_map(|number| [number; 1000]).collect();
    assert_eq!(numbers[..], expected);
}

#[test]
fn lists_are_written_in_slices() {
    let mut lists = lists();
    let slices = [s![.., ..;2].to_vec(), s![.., 1].to_vec()];
    let [mut outer, middle] = both(parts(&mut lists, &slices));
    assert!(outer.set(&[1, 1], vec![50]));
    assert_eq!(middle.get(&[1]), Some(&vec![4]));
    assert_eq!(lists[5], [50]);
}
