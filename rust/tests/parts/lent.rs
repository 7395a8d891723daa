//! Parts that are read, written, cut and taken apart.

use crate::{NUMBERS, kind, lists, picture, rows_mut};
use ndarray_layout::ErrorKind::{OutOfBounds, Unsupported};
use ndarray_layout::{
    ArrayViewMut, Axis, CanIndexCheckMode, Ix0, Ix1, Ix2, Ix3, IxDyn, LayoutError, OwnedArray, SliceInfoElem, Strided,
    s,
};
use std::thread;

#[test]
fn a_plane_has_the_coordinates_of_the_picture_wherever_its_items_lie() -> Result<(), LayoutError> {
    let mut items: [u8; 18] = std::array::from_fn(|place| place as u8);
    let mut picture = picture(&mut items);
    let [_, mut green, _] = picture.multi_slice_mut([0, 1, 2].map(|colour| s![.., .., colour]))?;
    assert_eq!((green.dim(), green.len(), green.is_empty()), (&Ix2(2, 3), 6, false));
    assert_eq!((green.get(&(1, 2)), green.get(&(2, 0)), green[(0, 1)]), (Some(&16), None, 4));
    assert!(green.set(&(1, 2), 99));
    assert!(!green.set(&(0, 3), 98));
    green[(0, 0)] += 10;
    assert_eq!((items[16], items[1], items.iter().filter(|item| **item > 17).count()), (99, 11, 1));
    Ok(())
}

#[test]
fn slices_of_mixed_kinds_are_lent_together() -> Result<(), LayoutError> {
    let mut numbers = NUMBERS;
    let mut rows = rows_mut(&mut numbers);
    let (item, line, mut tile, corner) = rows.multi_slice_mut((s![0, 0], s![0, 1..], s![1.., ..2], s![1..;-1, 2..]))?;
    let (mut item, mut line): (ArrayViewMut<u8, Ix0>, ArrayViewMut<u8, Ix1>) = (item, line);
    item[()] = 50;
    line[1] = 52;
    tile[(0, 1)] = 54;
    assert_eq!((corner.dim(), corner[(0, 0)]), (&Ix2(1, 1), 5));
    assert_eq!(numbers, [50, 1, 52, 3, 54, 5, 6]);
    Ok(())
}

#[test]
fn lists_tuples_and_arrays_of_slices_are_taken() -> Result<(), LayoutError> {
    let mut numbers = NUMBERS;
    let mut rows = rows_mut(&mut numbers);
    let columns = [s![.., 0], s![.., 2]];
    rows.multi_slice_mut(columns)?[1].fill(9);
    rows.multi_slice_mut(&columns)?[0].fill(8);
    rows.multi_slice_mut(columns.to_vec())?[0].map_in_place(|item| *item -= 1);
    rows.multi_slice_mut(&columns[1..])?[0].map_in_place(|item| *item -= 1);
    let none: [SliceInfoElem; 0] = [];
    assert!(
        rows.multi_slice_mut(Vec::<&[SliceInfoElem; 0]>::new().iter().map(|_| s![.., 0]).collect::<Vec<_>>())?
            .is_empty()
    );
    assert_eq!((none.len(), numbers), (0, [7, 1, 8, 7, 4, 8, 6]));
    Ok(())
}

#[test]
fn each_part_of_a_tuple_is_that_of_its_slice() -> Result<(), LayoutError> {
    let mut numbers = NUMBERS;
    let mut rows = rows_mut(&mut numbers);
    let three = rows.multi_slice_mut((s![1, 2], s![0, 1], s![1, 0]))?;
    assert_eq!([three.0[()], three.1[()], three.2[()]], [5, 1, 3]);
    let four = rows.multi_slice_mut((s![1, 2], s![0, 1], s![1, 0], s![0, 0]))?;
    assert_eq!([four.0[()], four.1[()], four.2[()], four.3[()]], [5, 1, 3, 0]);
    let five = rows.multi_slice_mut((s![1, 2], s![0, 1], s![1, 0], s![0, 0], s![1, 1]))?;
    assert_eq!([five.0[()], five.1[()], five.2[()], five.3[()], five.4[()]], [5, 1, 3, 0, 4]);
    let six = rows.multi_slice_mut((s![1, 2], s![0, 1], s![1, 0], s![0, 0], s![1, 1], s![0, 2]))?;
    assert_eq!([six.0[()], six.1[()], six.2[()], six.3[()], six.4[()], six.5[()]], [5, 1, 3, 0, 4, 2]);
    Ok(())
}

#[test]
fn slices_that_share_an_item_or_do_not_fit_are_refused() -> Result<(), LayoutError> {
    let mut numbers = NUMBERS;
    let mut rows = rows_mut(&mut numbers);
    assert_eq!(kind(rows.multi_slice_mut((s![0, ..], s![.., 0]))), Some(Unsupported));
    assert_eq!(kind(rows.multi_slice_mut((s![.., ..;2], s![1, 2]))), Some(Unsupported));
    assert_eq!(kind(rows.multi_slice_mut((s![.., ..], s![.., ..]))), Some(Unsupported));
    assert_eq!(kind(rows.multi_slice_mut((s![0, ..], s![.., 0], s![2, ..]))), Some(OutOfBounds));
    assert_eq!(kind(rows.multi_slice_mut([s![..;0, ..]])), Some(Unsupported));
    assert!(rows.multi_slice_mut((s![.., ..0], s![.., ..0]))?.0.is_empty());
    assert_eq!(numbers, NUMBERS);
    Ok(())
}

#[test]
fn lists_are_written_in_parts() -> Result<(), LayoutError> {
    let mut array = OwnedArray::from_shape_vec(Ix2(2, 3), lists()[..6].to_vec())?;
    let (mut outer, mut middle) = array.multi_slice_mut((s![.., ..;2], s![.., 1]))?;
    assert!(outer.set(&(1, 1), vec![50, 51]));
    middle.map_in_place(Vec::clear);
    outer.get_mut(&(0, 0)).expect("the first list").push(1);
    outer.split_at(Axis(0), 1)?.1.split_at(Axis(1), 1)?.0.fill(vec![7; 3]);
    assert_eq!(array.stored(), [&[0, 1][..], &[], &[2], &[7, 7, 7], &[], &[50, 51]]);
    Ok(())
}

#[test]
fn parts_are_cut_along_each_axis_and_counted_anew() -> Result<(), LayoutError> {
    let mut numbers = NUMBERS;
    let backwards = rows_mut(&mut numbers).slice_move(s![..;-1, ..;-1])?;
    assert_eq!((backwards[(0, 0)], backwards[(1, 2)]), (5, 0));
    let (first, second) = backwards.split_at(Axis(1), 1)?;
    assert_eq!((first[(0, 0)], first[(1, 0)], second[(0, 0)], second[(1, 1)]), (5, 2, 4, 0));
    let (above, mut below) = second.split_at(Axis(0), 1)?;
    below.fill(9);
    assert_eq!(
        (above.into_row_slices()?, below.into_row_slices()?),
        (vec![&mut [4][..], &mut [3]], vec![&mut [9][..], &mut [9]])
    );
    let (none, all) = first.split_at(Axis(1), 0)?;
    assert_eq!((none.dim(), none.is_empty(), all.dim()), (&Ix2(2, 0), true, &Ix2(2, 1)));
    assert!(none.into_row_slices()?.is_empty());
    let (all, none) = all.split_at(Axis(0), 2)?;
    assert_eq!((all.len(), none.dim()), (2, &Ix2(0, 1)));
    assert_eq!(kind(none.split_at(Axis(0), 1)), Some(OutOfBounds));
    assert_eq!(kind(all.split_at(Axis(2), 0)), Some(OutOfBounds));
    assert_eq!(numbers, [9, 9, 2, 3, 4, 5, 6]);
    Ok(())
}

#[test]
fn rows_are_those_of_the_last_axis_or_single_items() -> Result<(), LayoutError> {
    let mut numbers = NUMBERS;
    let whole = rows_mut(&mut numbers);
    assert_eq!(whole.into_row_slices()?, [[0, 1, 2], [3, 4, 5]]);
    let turned = rows_mut(&mut numbers).reversed_axes();
    assert_eq!((turned.dim(), turned[(2, 1)]), (&Ix2(3, 2), 5));
    assert_eq!(turned.into_row_slices()?, [[0], [3], [1], [4], [2], [5]]);
    let upwards = rows_mut(&mut numbers).slice_move(s![..;-1, ..2])?;
    assert_eq!(upwards.into_row_slices()?, [[3, 4], [0, 1]]);
    let steps = rows_mut(&mut numbers).slice_move(s![.., ..;2])?;
    assert_eq!(steps.into_row_slices()?, [[0], [2], [3], [5]]);
    Ok(())
}

#[test]
fn a_part_has_a_slice_where_its_items_follow_one_another() -> Result<(), LayoutError> {
    let mut numbers = NUMBERS;
    assert_eq!(kind(ArrayViewMut::from_shape(Ix2(2, 4), &mut numbers)), Some(OutOfBounds));
    let part = ArrayViewMut::from_shape(Ix2(2, 3), &mut numbers)?;
    assert_eq!(part.as_slice(), Some(&[0, 1, 2, 3, 4, 5][..]));
    let (above, below) = part.split_at(Axis(0), 1)?;
    assert_eq!((above.as_slice(), below.as_slice()), (Some(&[0, 1, 2][..]), Some(&[3, 4, 5][..])));
    let (mut item, pair) = below.split_at(Axis(1), 1)?;
    assert!(item.set(&(0, 0), 7));
    assert_eq!((item.as_slice(), pair.as_slice()), (Some(&[7][..]), Some(&[4, 5][..])));
    let backwards = rows_mut(&mut numbers).slice_move(s![.., ..;-1])?;
    assert_eq!((backwards.as_slice(), backwards.len()), (None, 6));
    let none = rows_mut(&mut numbers).slice_move(s![2.., ..])?;
    assert_eq!((none.as_slice(), none.is_empty()), (Some(&[][..]), true));
    Ok(())
}

#[test]
fn a_part_is_read_in_a_thread_while_another_is_written() -> Result<(), LayoutError> {
    let mut numbers = NUMBERS;
    let mut rows = rows_mut(&mut numbers);
    let (read, mut written) = rows.multi_slice_mut((s![.., ..;2], s![.., 1]))?;
    let sum = thread::scope(|scope| {
        let (items, others) = (read.iter(), read.iter());
        let sum = scope.spawn(move || items.copied().sum::<u8>());
        written.fill(9);
        (sum.join().expect("a sum"), others.copied().collect::<Vec<u8>>())
    });
    assert_eq!(sum, (10, vec![0, 2, 3, 5]));
    assert_eq!(numbers, [0, 9, 2, 3, 9, 5, 6]);
    Ok(())
}

#[test]
#[should_panic(expected = "index (0, 2) is out of bounds of the shape [2, 2]")]
fn an_index_past_a_part_panics() {
    let mut numbers = NUMBERS;
    let mut rows = rows_mut(&mut numbers);
    let [part] = rows.multi_slice_mut([s![.., 1..]]).expect("a part");
    let _ = part[(0, 2)];
}

#[test]
fn any_count_of_axes_has_parts() -> Result<(), LayoutError> {
    let mut numbers: Vec<u8> = (0..12).collect();
    let mut array = ArrayViewMut::from_shape(IxDyn(&[1, 2, 1, 2, 3]), &mut numbers)?;
    let (mut part, others) = array.multi_slice_mut((s![0, 1, .., .., ..;2], s![.., 0, 0, 1, 1..]))?;
    assert_eq!((part.dim(), part[(0, 1, 1)], others[(0, 1)]), (&Ix3(1, 2, 2), 11, 5));
    part.fill(0);
    assert_eq!(numbers[6..], [0, 7, 0, 0, 10, 0]);
    Ok(())
}

#[test]
fn many_axes_are_written_without_recursion() -> Result<(), LayoutError> {
    let mut numbers = [0_u8; 80];
    let shape: Vec<usize> = [&vec![1; 50_000][..], &[2, 20]].concat();
    let strides: Vec<usize> = [&vec![0; 50_000][..], &[40, 2]].concat();
    let view = Strided::new(IxDyn(&shape), IxDyn(&strides), 1, 80, CanIndexCheckMode::OwnedMutable)?;
    let mut part = ArrayViewMut::over(view, &mut numbers)?;
    part.fill(1);
    part.iter_mut().for_each(|item| *item += 1);
    assert_eq!(part.into_row_slices()?.len(), 40);
    assert!(numbers.chunks(2).all(|pair| pair == [2, 0]));
    Ok(())
}

#[test]
fn threads_write_tiles_and_planes() -> Result<(), LayoutError> {
    let mut items = vec![0_u8; 100 * 90];
    let mut picture = ArrayViewMut::from_shape(Ix3(100, 30, 3), &mut items)?;
    let planes = picture.multi_slice_mut([0, 1, 2].map(|colour| s![.., .., colour]))?;
    thread::scope(|scope| {
        for (mut plane, colour) in planes.into_iter().zip(1..) {
            scope.spawn(move || plane.fill(colour));
        }
    });
    assert!(items.chunks(3).all(|pixel| pixel == [1, 2, 3]));
    let mut picture = ArrayViewMut::from_shape(Ix2(100, 90), &mut items)?;
    let corners: Vec<(usize, usize)> = (0..100).flat_map(|tile| [(tile / 10 * 10, tile % 10 * 9)]).collect();
    let tiles = picture.multi_slice_mut(corners.iter().map(|(y, x)| s![*y..y + 10, *x..x + 9]).collect::<Vec<_>>())?;
    thread::scope(|scope| {
        for (mut tile, number) in tiles.into_iter().zip(0..) {
            scope.spawn(move || tile.fill(number));
        }
    });
    assert!(items.iter().enumerate().all(|(place, item)| usize::from(*item) == place / 900 * 10 + place % 90 / 9));
    Ok(())
}
