//! Axes that are changed in place.

use crate::{items, two_rows};
use ndarray_layout::Axis;

#[test]
fn an_axis_is_inverted() {
    let mut rows = two_rows();
    rows.invert_axis(Axis(1)).unwrap();
    assert_eq!(items(&rows), [2, 1, 0, 5, 4, 3]);
    rows.invert_axis(Axis(1)).unwrap();
    assert_eq!(items(&rows), [0, 1, 2, 3, 4, 5]);
}

#[test]
fn axes_are_merged_and_collapsed() {
    let mut rows = two_rows();
    assert_eq!(rows.merge(Axis(0), Axis(1)), Ok(true));
    assert_eq!(items(&rows), [0, 1, 2, 3, 4, 5]);
    rows.collapse(Axis(1), 4).unwrap();
    assert_eq!(items(&rows), [4]);
}

#[test]
fn axes_are_swapped_and_unchanged_by_an_error() {
    let mut columns = two_rows();
    columns.swap_axes(Axis(0), Axis(1)).unwrap();
    assert_eq!(items(&columns), [0, 3, 1, 4, 2, 5]);
    assert!(columns.swap_axes(Axis(0), Axis(2)).is_err());
    assert!(columns.collapse(Axis(0), 3).is_err());
    assert!(columns.invert_axis(Axis(2)).is_err());
    assert!(columns.merge(Axis(0), Axis(0)).is_err());
    assert_eq!(items(&columns), [0, 3, 1, 4, 2, 5]);
}
