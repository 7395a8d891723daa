//! Writes to pictures.

use crate::example_callers::{
    brighten, flip, paint, paint_over, paint_owned, paint_shape, with_two_parts, write_parts,
};
use crate::{Hundreds, Layout, Listed, Places, SIX_AXES, pixels, strides};
use ndarray_layout::CanIndexCheckMode::{OwnedMutable, ReadOnly};
use ndarray_layout::{
    ArrayView, ArrayViewMut, Axis, Ix2, IxDyn, OwnedArray, ShapeBuilder, SliceInfoElem, Strided, s, unsigned,
};

/// Part of an array, and the pixels for it.
type Part = (Vec<SliceInfoElem>, Vec<u8>);

fn array((shape, by, len): Layout) -> OwnedArray<u8, IxDyn> {
    OwnedArray::from_shape_vec(IxDyn(shape).strides(strides(by)).unwrap(), pixels(len)).unwrap()
}

/// The two parts are written or not, and these pixels are left, in the list that comes back or in the array.
fn assert_writes(layout: Layout, parts: &[Part; 2], is_written: bool, left: Places) {
    let mut written = array(layout);
    assert_eq!(write_parts(&mut written, parts), Ok(is_written));
    assert_eq!(written.stored(), left.pixels());
    let stored = with_two_parts(array(layout), parts);
    assert_eq!(stored.is_ok(), is_written);
    assert_eq!(stored.unwrap_or_else(|(_, array)| array.into_stored()), left.pixels());
}

/// Two rows of three pixels, and a spare one.
const ROWS: Layout = (&[2, 3], &[3, 1], 7);

#[test]
fn two_parts_are_written_at_once() {
    let parts = [(s![0, ..].to_vec(), vec![10, 11, 12]), (s![1, ..;2].to_vec(), vec![20, 21])];
    assert_writes(ROWS, &parts, true, Listed(&[10, 11, 12, 20, 4, 21, 6]));
}

#[test]
fn nothing_is_written_where_parts_share_a_pixel() {
    let parts = [(s![1, ..].to_vec(), vec![10, 11, 12]), (s![.., 0].to_vec(), vec![20])];
    assert_writes(ROWS, &parts, false, Listed(&[0, 1, 2, 3, 4, 5, 6]));
}

#[test]
fn parts_of_six_axes_are_written() {
    let back = s![..;-1, ..;-1, ..;-1, ..;-1, ..;-1, ..;-1].to_vec();
    let parts = [(back, pixels(10_000)), (s![0..0, .., .., .., .., ..].to_vec(), Vec::new())];
    assert_writes((SIX_AXES, &[1000, 500, 100, 10, 5, 1], 10_000), &parts, true, Hundreds(9999, -100, -1));
}

#[test]
fn a_picture_is_painted_and_spare_pixels_are_not() {
    let mut pixels = pixels(8);
    assert!(paint(&mut pixels, (2, 3).strides((4, 1)).unwrap(), 9).is_ok());
    assert_eq!(pixels, [9, 9, 9, 3, 9, 9, 9, 7]);
    assert!(paint(&mut pixels, (2, 4).strides((5, 1)).unwrap(), 8).is_err());
    assert_eq!(pixels, [9, 9, 9, 3, 9, 9, 9, 7]);
    assert!(paint_shape(&mut pixels, (2, 3).strides((4, 1)).unwrap(), 6).is_ok());
    assert_eq!(pixels, [6, 6, 6, 3, 6, 6, 6, 7]);
    let view = |row, column| Strided::from_parts(0, Ix2(2, 3), Ix2(row, column), 1, 8, ReadOnly).unwrap();
    assert!(paint_over(view(4, 1), &mut pixels, 5).is_ok() && paint_over(view(1, 1), &mut pixels, 4).is_err());
    assert_eq!(pixels, [5, 5, 5, 3, 5, 5, 5, 7]);
}

#[test]
fn an_owned_picture_is_painted_and_spare_pixels_are_not() {
    let mut picture = OwnedArray::from_shape_vec((2, 3), pixels(7)).unwrap();
    assert_eq!(paint_owned(&mut picture, 8), Ok(()));
    assert_eq!(picture.stored(), [8, 8, 8, 8, 8, 8, 6]);
}

#[test]
fn pixels_of_a_picture_are_brightened_and_spare_ones_are_not() {
    let mut pixels = pixels(8);
    let mut picture = ArrayViewMut::from_shape((2, 3).strides((4, 1)).unwrap(), &mut pixels).unwrap();
    brighten(&mut picture);
    assert_eq!(pixels, [1, 2, 3, 3, 5, 6, 7, 7]);
}

/// Rows and columns, the strides of both, how many pixels they lie in, and the pixels once the picture is upside down.
type Flipped = ([usize; 2], [isize; 2], usize, Places);

const FLIPPED: &[Flipped] = &[
    ([3, 2], [2, 1], 7, Listed(&[4, 5, 2, 3, 0, 1, 6])),
    ([2, 3], [4, 1], 8, Listed(&[4, 5, 6, 3, 0, 1, 2, 7])),
    ([4, 1], [-1, 1], 4, Listed(&[3, 2, 1, 0])),
    ([2, 3], [1, 2], 6, Listed(&[1, 0, 3, 2, 5, 4])),
    ([1, 3], [3, 1], 3, Listed(&[0, 1, 2])),
    ([0, 3], [3, 1], 2, Listed(&[0, 1])),
    ([3, 0], [1, 1], 3, Listed(&[0, 1, 2])),
    ([100, 100], [100, 1], 10_000, Hundreds(9900, -100, 1)),
];

#[test]
fn a_picture_is_turned_upside_down_and_spare_pixels_stay() {
    for &([rows, columns], [by_row, by_column], len, expected) in FLIPPED {
        let strides = Ix2(unsigned(by_row), unsigned(by_column));
        let view = || Strided::new(Ix2(rows, columns), strides, 1, len, OwnedMutable).unwrap();
        let before = pixels(len);
        let mut flipped = before.clone();
        assert_eq!(flip(view(), &mut flipped), Ok(()));
        assert_eq!(flipped, expected.pixels(), "{rows} {columns}");
        let mut mirrored = ArrayView::over(view(), &before).unwrap();
        mirrored.invert_axis(Axis(0)).unwrap();
        let now = ArrayView::over(view(), &flipped).unwrap();
        assert!(now.iter().eq(mirrored.iter()), "{rows} {columns}");
    }
}
