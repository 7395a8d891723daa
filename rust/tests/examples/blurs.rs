//! Blurs of pictures.

use crate::example_callers::blur;
use crate::{Layout, pixels};
use ndarray_layout::{ArrayView, Ix2, ShapeBuilder, unsigned};

/// The picture of a layout of two axes.
fn picture<'a>(layout: &Layout, pixels: &'a [u8]) -> ArrayView<'a, u8, Ix2> {
    let &([rows, columns], [by_row, by_column], _) = layout else { panic!("two axes: {layout:?}") };
    let strides = (unsigned(*by_row), unsigned(*by_column));
    ArrayView::from_shape((*rows, *columns).strides(strides).unwrap(), pixels).unwrap()
}

const BY_HAND: &[(Layout, &[u8])] = &[
    ((&[3, 3], &[3, 1], 9), &[4]),
    ((&[4, 5], &[5, 1], 20), &[6, 7, 8, 11, 12, 13]),
    ((&[3, 4], &[-4, 1], 12), &[5, 6]),
    ((&[4, 3], &[1, 4], 12), &[5, 6]),
    ((&[3, 3], &[250, 1], 503), &[83]),
    ((&[2, 5], &[5, 1], 10), &[]),
    ((&[5, 2], &[2, 1], 10), &[]),
    ((&[0, 3], &[3, 1], 2), &[]),
    ((&[3, 0], &[1, 1], 3), &[]),
];

#[test]
fn blurs_have_the_means_that_are_computed_by_hand() {
    for (layout, expected) in BY_HAND {
        assert_eq!(blur(&picture(layout, &pixels(layout.2))).unwrap(), *expected, "{layout:?}");
    }
}

/// The mean of the nine pixels of which the first one has this row and this column.
fn mean_at(pixels: &[u8], strides: &[isize], start: usize, row: usize, column: usize) -> u8 {
    let places = (0..9).map(|number| {
        let (row, column) = (row + number / 3, column + number % 3);
        start.checked_add_signed(row as isize * strides[0] + column as isize * strides[1]).unwrap()
    });
    let sum: u32 = places.map(|place| u32::from(pixels[place])).sum();
    u8::try_from(sum / 9).unwrap()
}

const LARGE: &[Layout] = &[
    (&[40, 50], &[50, 1], 2000),
    (&[40, 50], &[-50, -1], 2000),
    (&[50, 40], &[1, 50], 2000),
    (&[7, 9], &[-40, 3], 400),
    (&[102, 102], &[102, 1], 10_404),
];

#[test]
fn blurs_have_the_means_of_pixels_that_are_found_by_their_places() {
    for layout in LARGE {
        let (shape, strides, len) = *layout;
        let pixels = pixels(len);
        let picture = picture(layout, &pixels);
        let (rows, columns) = (shape[0] - 2, shape[1] - 2);
        let expected: Vec<u8> = (0..rows * columns)
            .map(|number| mean_at(&pixels, strides, picture.strided().start(), number / columns, number % columns))
            .collect();
        assert_eq!(blur(&picture).unwrap(), expected, "{layout:?}");
    }
}
