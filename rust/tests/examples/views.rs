//! Views of any number of axes, and of lists.

use crate::example_callers::{
    along_shape, flat_plane, flat_plane_by_steps, grid, in_rows, in_shape, on_common_shape, pixel, pixels_of,
    separate_places,
};
use crate::{Hundreds, Layout, Listed, Places, SIX_AXES, SIX_BACK, kind, pixels, strides, view_of};
use ndarray_layout::ErrorKind::{self, IncompatibleLayout, IncompatibleShape, OutOfBounds, Overflow};
use ndarray_layout::{ArrayView, IxDyn, LayoutError, Lengths, Order, Strided, s};

const PIXELS: &[(Layout, &[usize], Option<u8>)] = &[
    ((&[2, 1, 2, 1, 2, 1], &[7, 9, -3, 9, 1, 9], 13), &[1, 0, 1, 0, 1, 0], Some(8)),
    ((&[2, 3], &[3, 1], 6), &[2, 0], None),
];

#[test]
fn a_pixel_is_found_by_its_index() {
    for &(layout, index, expected) in PIXELS {
        assert_eq!(pixel(&pixels(layout.2), &view_of(layout), &IxDyn(index)), expected);
    }
}

/// The pixels of a view.
fn seen<D: Lengths>(view: &Strided<D>, pixels: &[u8]) -> Vec<u8> {
    pixels_of(&ArrayView::over(view.duplicate().unwrap(), pixels).unwrap()).unwrap()
}

const SEEN: &[(Layout, Places)] = &[
    ((&[0, 3], &[3, 1], 2), Listed(&[])),
    ((&[2, 1, 2, 1, 2, 1], &[7, 9, -3, 9, 1, 9], 13), Listed(&[3, 4, 0, 1, 10, 11, 7, 8])),
    ((SIX_AXES, SIX_BACK, 10_000), Hundreds(9999, -100, -1)),
];

#[test]
fn pixels_are_copied_row_after_row() {
    for &(layout, expected) in SEEN {
        assert_eq!(seen(&view_of(layout), &pixels(layout.2)), expected.pixels());
    }
}

/// Two layouts over the elements of the first one, and the shape in common with the places of each.
type Common = (Layout, (&'static [usize], &'static [isize]), Result<(&'static [usize], Places, Places), ErrorKind>);

const COMMON: &[Common] = &[
    ((&[2, 1], &[1, 1], 4), (&[3], &[1]), Ok((&[2, 3], Listed(&[0, 0, 0, 1, 1, 1]), Listed(&[0, 1, 2, 0, 1, 2])))),
    ((&[0], &[0], 3), (&[3], &[1]), Err(IncompatibleShape)),
    ((&[isize::MAX as usize, 1, 1, 1, 0], &[0; 5], 0), (&[1, 1, 1, 2, 0], &[0; 5]), Err(Overflow)),
    (
        (&[10, 1, 10, 1, 1], &[10, 9, 1, 9, 9], 100),
        (&[10, 10], &[10, 1]),
        Ok((&[10, 1, 10, 10, 10], Hundreds(0, 1, 0), Hundreds(0, 0, 1))),
    ),
];

#[test]
fn two_views_are_read_in_their_common_shape() {
    for &(layout, (shape, strides), expected) in COMMON {
        let pixels = pixels(layout.2);
        let both = on_common_shape(&view_of(layout), &view_of((shape, strides, layout.2)));
        let seen = both.map(|(one, other)| {
            assert_eq!(one.dim(), other.dim());
            (one.dim().slice().to_vec(), seen(&one, &pixels), seen(&other, &pixels))
        });
        let expected = expected.map(|(shape, one, other)| (shape.to_vec(), one.pixels(), other.pixels()));
        assert_eq!(seen.map_err(kind), expected);
    }
}

/// A layout, another shape, and its strides where there are some.
type Along = (Layout, &'static [usize], Option<&'static [isize]>);

const ALONG: &[Along] = &[
    ((&[2, 3], &[3, 1], 6), &[3, 2], Some(&[2, 1])),
    ((&[2, 3], &[1, 2], 6), &[6], None),
    ((&[100, 100], &[1, 100], 10_000), SIX_AXES, Some(&[10, 5, 1, 1000, 500, 100])),
];

#[test]
fn another_shape_has_strides_or_takes_a_copy() {
    for &(layout, other, expected) in ALONG {
        let view = view_of(layout);
        let same = along_shape(&view, &IxDyn(other)).unwrap();
        let parts = same.map(|same| (same.start(), same.dim().clone(), same.strides().clone()));
        assert_eq!(parts, expected.map(|expected| (view.start(), IxDyn(other), strides(expected))));
    }
}

const TWO_ROWS: Layout = (&[2, 3], &[3, 1], 6);
const FIVE_AXES: Layout = (&[10, 10, 2, 10, 10], &[2000, 200, 100, 10, 1], 20_000);

#[test]
fn parts_of_a_view_are_apart_or_share_an_index() {
    for (layout, first, second, expected) in [
        (TWO_ROWS, s![0, ..].to_vec(), s![1, ..].to_vec(), Ok(Some((Listed(&[0, 1, 2]), Listed(&[3, 4, 5]))))),
        (TWO_ROWS, s![.., 0].to_vec(), s![0, ..].to_vec(), Ok(None)),
        (TWO_ROWS, s![..].to_vec(), s![2, ..].to_vec(), Err(IncompatibleShape)),
        (
            FIVE_AXES,
            s![.., .., 0, .., ..].to_vec(),
            s![.., .., 1, ..;-1, ..;-1].to_vec(),
            Ok(Some((Hundreds(0, 200, 1), Hundreds(199, 200, -1)))),
        ),
    ] {
        let apart = separate_places(&view_of(layout), &first, &second).map_err(kind);
        assert_eq!(apart, expected.map(|both| both.map(|(one, other)| (one.list(), other.list()))));
    }
}

/// The shape of a view and its places, or an error.
type Made = Result<(&'static [usize], Places), ErrorKind>;

fn assert_made<D: Lengths>(made: Result<Strided<D>, LayoutError>, expected: &Made) {
    let made = made.map_err(kind).map(|view| (view.dim().slice().to_vec(), view.places(Order::RowMajor).unwrap()));
    assert_eq!(made, expected.map(|(shape, places)| (shape.to_vec(), places.list())));
}

const GRIDS: &[(usize, usize, usize, Made)] = &[
    (2, 3, 7, Ok((&[2, 3], Listed(&[0, 1, 2, 3, 4, 5])))),
    (0, 3, 0, Ok((&[0, 3], Listed(&[])))),
    (2, 3, 5, Err(OutOfBounds)),
    (1 << 63, 0, 5, Err(Overflow)),
    (100, 100, 10_000, Ok((&[100, 100], Hundreds(0, 100, 1)))),
];

#[test]
fn a_list_is_read_as_a_grid() {
    for (rows, columns, len, expected) in GRIDS {
        assert_made(grid(&pixels(*len), *rows, *columns), expected);
    }
}

const SHAPES: &[(&[usize], usize, Made)] = &[
    (&[], 1, Ok((&[], Listed(&[0])))),
    (&[3, 1, 2, 1, 1], 6, Ok((&[3, 1, 2, 1, 1], Listed(&[0, 1, 2, 3, 4, 5])))),
    (&[3, 1, 2, 1, 1], 5, Err(OutOfBounds)),
    (SIX_AXES, 10_000, Ok((SIX_AXES, Hundreds(0, 100, 1)))),
];

#[test]
fn a_list_is_read_in_any_shape() {
    for (shape, len, expected) in SHAPES {
        assert_made(in_shape(&pixels(*len), IxDyn(shape)), expected);
    }
}

/// A layout, how many rows and columns it is read in, and these.
const IN_ROWS: &[(Layout, usize, usize, Made)] = &[
    ((&[3, 2], &[-2, -1], 6), 2, 3, Ok((&[2, 3], Listed(&[5, 4, 3, 2, 1, 0])))),
    ((&[6], &[-1], 6), 2, 3, Ok((&[2, 3], Listed(&[5, 4, 3, 2, 1, 0])))),
    ((&[6], &[1], 6), 2, 4, Err(IncompatibleShape)),
    ((&[3, 2], &[-2, 1], 6), 2, 3, Err(IncompatibleLayout)),
    ((SIX_AXES, SIX_BACK, 10_000), 100, 100, Ok((&[100, 100], Hundreds(9999, -100, -1)))),
];

#[test]
fn a_view_is_read_in_rows() {
    for (layout, rows, columns, expected) in IN_ROWS {
        assert_made(in_rows(&view_of(*layout), *rows, *columns), expected);
    }
}

/// A stack of two planes of two rows of three pixels.
fn stack(strides: &'static [isize]) -> Strided<IxDyn> {
    view_of((&[2, 2, 3], strides, 15))
}

#[test]
fn a_plane_without_gaps_becomes_one_axis_of_pixels() {
    let mut view = stack(&[6, 3, 1]);
    let by_steps = flat_plane_by_steps(view.clone(), 1).unwrap();
    assert_eq!(flat_plane(&mut view, 1), Ok(true));
    assert_eq!((view.dim(), view.places(Order::RowMajor)), (&IxDyn(&[1, 1, 6]), Ok(vec![6, 7, 8, 9, 10, 11])));
    assert_eq!(by_steps, view);
}

#[test]
fn a_plane_with_gaps_keeps_its_rows() {
    let mut view = stack(&[8, 4, 1]);
    let stopped = flat_plane_by_steps(view.clone(), 1).unwrap_err();
    assert_eq!(flat_plane(&mut view, 1), Ok(false));
    assert_eq!((view.dim(), view.places(Order::RowMajor)), (&IxDyn(&[1, 2, 3]), Ok(vec![8, 9, 10, 12, 13, 14])));
    assert_eq!((stopped.at, kind(stopped.fault), stopped.view), (1, IncompatibleLayout, view));
}

#[test]
fn a_plane_past_the_last_one_leaves_the_stack() {
    let mut view = stack(&[6, 3, 1]);
    let stopped = flat_plane_by_steps(view.clone(), 2).unwrap_err();
    assert_eq!(flat_plane(&mut view, 2).unwrap_err().kind(), OutOfBounds);
    assert_eq!(view, stack(&[6, 3, 1]));
    assert_eq!((stopped.at, kind(stopped.fault), stopped.view), (0, OutOfBounds, view));
}
