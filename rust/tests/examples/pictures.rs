//! Parts and counts of pictures.

use crate::example_callers::{
    alternate_rows, band, count_bright, count_dark, count_dark_pixels, crop, lighten, picture, pixel_across, pixels_of,
    transposed_part,
};
use crate::{Hundreds, Listed, Places, pixels};
use ndarray_layout::{ArrayView, ArrayViewMut, Dim, Ix2, OwnedArray, s};
use std::ops::Range;

/// The picture whose pixels lie row after row in a list.
fn picture_of(pixels: &[u8], rows: usize, columns: usize) -> ArrayView<'_, u8, Ix2> {
    ArrayView::over(picture(pixels, rows, columns).unwrap(), pixels).unwrap()
}

/// The shape of a picture and its pixels.
fn shape_and_pixels(picture: ArrayView<'_, u8, Ix2>) -> (Ix2, Vec<u8>) {
    (*picture.dim(), pixels_of(&picture).unwrap())
}

/// Rows and columns, and the places of every other row from the last one up.
const ALTERNATE: &[(usize, usize, Places)] =
    &[(5, 2, Listed(&[8, 9, 4, 5, 0, 1])), (200, 100, Hundreds(19_900, -200, 1))];

#[test]
fn every_other_row_comes_from_the_last_one_up() {
    for &(rows, columns, expected) in ALTERNATE {
        let pixels = pixels(rows * columns);
        let alternate = alternate_rows(&picture_of(&pixels, rows, columns)).unwrap();
        assert_eq!(pixels_of(&alternate).unwrap(), expected.pixels());
    }
}

/// Rows, columns, how many pixels they lie in, a bound, and how many of the picture's are at least as bright.
const BRIGHT: &[(usize, usize, usize, u8, usize)] = &[(2, 3, 7, 4, 2), (2, 3, 7, 0, 6), (100, 100, 10_000, 200, 2000)];

#[test]
fn bright_pixels_are_counted() {
    for &(rows, columns, len, least, expected) in BRIGHT {
        assert_eq!(count_bright(&picture_of(&pixels(len), rows, columns), least), Ok(expected));
    }
}

/// The same with how many are darker.
const DARK: &[(usize, usize, usize, u8, usize)] = &[(2, 3, 7, 4, 4), (2, 0, 7, 4, 0), (100, 100, 10_000, 200, 8000)];

#[test]
fn dark_pixels_are_counted_where_they_are_lent_and_where_they_are_owned() {
    for &(rows, columns, len, bound, expected) in DARK {
        let pixels = pixels(len);
        assert_eq!(count_dark(&picture_of(&pixels, rows, columns), bound), expected);
        let owned = OwnedArray::from_shape_vec((rows, columns), pixels).unwrap();
        assert_eq!(count_dark_pixels(&owned, bound), expected);
    }
}

/// Rows and columns of a picture, some rows, and the shape and the places of these.
type Band = ([usize; 2], Range<usize>, Option<([usize; 2], Places)>);

const BANDS: &[Band] = &[
    ([4, 3], 1..3, Some(([2, 3], Listed(&[3, 4, 5, 6, 7, 8])))),
    ([4, 3], 4..4, Some(([0, 3], Listed(&[])))),
    #[allow(clippy::reversed_empty_ranges)]
    ([4, 3], 3..1, None),
    ([4, 3], 3..5, None),
    ([4, 3], 0..usize::MAX, None),
    ([200, 100], 100..200, Some(([100, 100], Hundreds(10_000, 100, 1)))),
];

#[test]
fn a_band_has_whole_rows() {
    for ([rows, columns], range, expected) in BANDS {
        let pixels = pixels(rows * columns);
        let left = band(&picture_of(&pixels, *rows, *columns), range.clone()).map(shape_and_pixels);
        assert_eq!(left, expected.map(|(shape, places)| (Dim(shape), places.pixels())), "{range:?}");
    }
}

/// Rows and columns of a picture, some rows and some columns, and the shape and the places of the part.
type Part = ([usize; 2], Range<usize>, Range<usize>, Option<([usize; 2], Places)>);

const CROPS: &[Part] = &[
    ([4, 3], 1..3, 0..2, Some(([2, 2], Listed(&[3, 4, 6, 7])))),
    ([4, 3], 1..3, 0..4, None),
    ([200, 200], 50..150, 99..199, Some(([100, 100], Hundreds(10_099, 200, 1)))),
];

const TRANSPOSED: &[Part] = &[
    ([2, 3], 0..2, 0..3, Some(([3, 2], Listed(&[0, 3, 1, 4, 2, 5])))),
    ([3, 4], 1..3, 2..4, Some(([2, 2], Listed(&[6, 10, 7, 11])))),
    ([3, 4], 1..4, 2..4, None),
    ([3, 4], 1..1, 2..4, Some(([2, 0], Listed(&[])))),
    ([100, 200], 0..100, 50..150, Some(([100, 100], Hundreds(50, 1, 200)))),
];

/// What takes a part of a picture by its rows and columns.
type TakesPart = for<'a> fn(&ArrayView<'a, u8, Ix2>, Range<usize>, Range<usize>) -> Option<ArrayView<'a, u8, Ix2>>;

fn assert_parts(table: &[Part], take: TakesPart) {
    for ([height, width], rows, columns, expected) in table {
        let pixels = pixels(height * width);
        let part = take(&picture_of(&pixels, *height, *width), rows.clone(), columns.clone()).map(shape_and_pixels);
        assert_eq!(part, expected.map(|(shape, places)| (Dim(shape), places.pixels())), "{rows:?} {columns:?}");
    }
}

#[test]
fn a_crop_lies_between_rows_and_columns() {
    assert_parts(CROPS, crop);
}

#[test]
fn a_transposed_part_has_columns_as_rows() {
    assert_parts(TRANSPOSED, transposed_part);
}

/// A row and a column of the transpose of two rows of three, and the pixel there.
const ACROSS: &[(usize, usize, Option<u8>)] = &[(2, 1, Some(5)), (0, 1, Some(3)), (1, 2, None)];

#[test]
fn a_pixel_across_stands_in_a_column() {
    let pixels = pixels(6);
    for &(row, column, expected) in ACROSS {
        assert_eq!(pixel_across(picture_of(&pixels, 2, 3), row, column), expected);
    }
}

#[test]
fn a_tile_is_lit_up_to_the_brightest_pixel() {
    let mut pixels = [0, 100, 200, 250, 10, 20];
    let mut picture = ArrayViewMut::from_shape(Ix2(2, 3), &mut pixels).unwrap();
    let light = ArrayView::from_shape(Ix2(2, 2), &[60, 60, 5, 6]).unwrap();
    assert!(lighten(&mut picture.slice_mut(s![.., 1..]).unwrap(), &light));
    assert!(!lighten(&mut picture, &light));
    assert_eq!(pixels, [0, 160, 255, 250, 15, 26]);
}
