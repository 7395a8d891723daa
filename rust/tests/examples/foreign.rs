//! Layouts from foreign code, with strides in bytes.

use crate::example_callers::from_bytes;
use crate::{Hundreds, Listed, Places, SIX_AXES, strides};
use ndarray_layout::CanIndexCheckMode::OwnedMutable;
use ndarray_layout::ErrorKind::{self, IncompatibleLayout, OutOfBounds, Overflow, Unsupported};
use ndarray_layout::{IxDyn, Order};

/// Start, size of an element, count of elements, shape and strides, and the places or the error.
type Row = (usize, usize, usize, &'static [usize], &'static [isize], Result<Places, ErrorKind>);

const ROWS: &[Row] = &[
    (0, 8, 6, &[2, 3], &[24, 8], Ok(Listed(&[0, 1, 2, 3, 4, 5]))),
    (5, 8, 6, &[2, 3], &[-24, -8], Ok(Listed(&[5, 4, 3, 2, 1, 0]))),
    (1, 2, 4, &[3], &[2], Ok(Listed(&[1, 2, 3]))),
    (1, 2, 3, &[3], &[2], Err(OutOfBounds)),
    (0, 8, 6, &[2, 3], &[12, 8], Err(IncompatibleLayout)),
    (0, 8, 6, &[2, 3], &[24, -4], Err(IncompatibleLayout)),
    (0, 8, 6, &[2, 3], &[24], Err(IncompatibleLayout)),
    (0, 1, 9, &[2], &[isize::MIN], Err(Overflow)),
    (0, 2, 9, &[1], &[isize::MIN], Ok(Listed(&[0]))),
    (0, 8, 6, &[2, 3], &[0, 8], Err(Unsupported)),
    (9999, 4, 10_000, SIX_AXES, &[-4000, -2000, -400, -40, -20, -4], Ok(Hundreds(9999, -100, -1))),
];

#[test]
fn strides_in_bytes_make_a_view_of_elements() {
    for &(start, elem_size, len, shape, byte_strides, expected) in ROWS {
        let made = from_bytes(start, IxDyn(shape), strides(byte_strides), elem_size, len, OwnedMutable);
        let places = made.map(|view| view.places(Order::RowMajor).unwrap());
        assert_eq!(places.map_err(|error| error.kind()), expected.map(Places::list), "{shape:?} {byte_strides:?}");
    }
}
