//! Ranges of coordinates of a view, and the range of its places.

use super::calls::answer;
use super::layout::{read_view, told};
use crate::table::{Words, assert_rows, layout_kind};
use ndarray_layout::{Axis, Lengths, ShapeError, Strided};

/// `LEN owned|read SHAPE STRIDES AXIS INDEX => VIEW VIEW`, or the fault.
pub fn split<D: Lengths>(words: &mut Words) -> String {
    let view: Strided<D> = read_view(words);
    match view.split_at(Axis(words.number()), words.number()) {
        Ok((first, second)) => format!("{} {}", told(Ok::<_, ShapeError>(first)), told(Ok::<_, ShapeError>(second))),
        Err(error) => layout_kind(error),
    }
}

/// `LEN owned|read SHAPE STRIDES STARTS ENDS => VIEW`, or `None`.
pub fn cropped<D: Lengths + Copy>(words: &mut Words) -> String {
    let view: Strided<D> = read_view(words);
    let kept = view.crop(&words.dim(), &words.dim());
    kept.map_or("None".to_owned(), |kept| told(Ok::<_, ShapeError>(kept)))
}

/// `LEN owned|read SHAPE STRIDES C|F => START END`, or `None`.
pub fn stretch<D: Lengths>(words: &mut Words) -> String {
    let places = read_view::<D>(words).stretch(words.order());
    places.map_or("None".to_owned(), |places| format!("{} {}", places.start, places.end))
}

#[test]
fn two_parts() {
    let table = "\
split_at Ix2 6 owned 2,3 3,1 1 1 => 2,1 3,1 0 0,3 2,2 3,1 1 1,2,4,5
split_at Ix2 6 owned 2,3 -3,-1 0 1 => 1,3 -3,-1 5 5,4,3 1,3 -3,-1 2 2,1,0
split_at Ix2 6 owned 2,3 3,1 1 0 => 2,0 3,1 0 - 2,3 3,1 0 0,1,2,3,4,5
split_at Ix2 6 owned 2,3 3,1 1 3 => 2,3 3,1 0 0,1,2,3,4,5 2,0 3,1 0 -
split_at Ix1 5 owned 3 -2 0 2 => 2 -2 4 4,2 1 -2 0 0
split_at Ix2 9 owned 0,3 3,1 0 0 => 0,3 3,1 0 - 0,3 3,1 0 -
split_at Ix2 9 owned 0,3 3,1 1 2 => 0,2 3,1 0 - 0,1 3,1 2 -
split_at Ix2 2 owned 1,2 -9223372036854775808,1 0 1 => \
1,2 -9223372036854775808,1 0 0,1 0,2 -9223372036854775808,1 0 -
split_at IxDyn 12 owned 2,1,3,1,2 -6,9,1,9,3 2 1 => \
2,1,1,1,2 -6,9,1,9,3 6 6,9,0,3 2,1,2,1,2 -6,9,1,9,3 7 7,10,8,11,1,4,2,5
split_at Ix2 6 owned 2,3 3,1 1 4 => OutOfBounds
split_at Ix2 6 owned 2,3 3,1 2 0 => OutOfBounds
split_at Ix0 1 owned - - 0 0 => OutOfBounds
split_at IxDyn 6 owned 2,3 3,1 1 18446744073709551615 => OutOfBounds";
    assert_rows(table, answer);
}

#[test]
fn a_range_on_each_axis() {
    let table = "\
crop Ix2 12 owned 4,3 3,1 1,1 3,2 => 2,1 3,1 4 4,7
crop Ix2 12 owned 4,3 3,1 0,0 4,3 => 4,3 3,1 0 0,1,2,3,4,5,6,7,8,9,10,11
crop Ix2 12 owned 4,3 -3,-1 1,1 3,3 => 2,2 -3,-1 7 7,6,4,3
crop Ix2 12 owned 4,3 3,1 1,3 3,3 => 2,0 3,1 3 -
crop Ix2 12 owned 4,3 3,1 4,1 4,2 => 0,1 3,1 1 -
crop Ix2 9 owned 0,3 3,1 0,1 0,2 => 0,1 3,1 1 -
crop Ix2 2 owned 1,2 -9223372036854775808,1 1,1 1,2 => 0,1 -9223372036854775808,1 1 -
crop Ix3 24 owned 2,3,4 12,4,1 1,0,2 2,2,4 => 1,2,2 12,4,1 14 14,15,18,19
crop Ix1 5 owned 3 -2 2 3 => 1 -2 0 0
crop Ix0 1 owned - - - - => - - 0 0
crop Ix2 12 owned 4,3 3,1 1,1 3,4 => None
crop Ix2 12 owned 4,3 3,1 1,2 3,1 => None
crop Ix2 12 owned 4,3 3,1 5,0 5,3 => None
crop Ix1 5 owned 3 2 18446744073709551615 18446744073709551615 => None";
    assert_rows(table, answer);
}

#[test]
fn places_that_follow_one_another() {
    let table = "\
stretch Ix2 6 owned 2,3 3,1 C => 0 6
stretch Ix2 6 owned 2,3 3,1 F => None
stretch Ix2 6 owned 2,3 1,2 F => 0 6
stretch Ix2 6 owned 2,3 1,2 C => None
stretch Ix1 5 owned 3 -1 C => None
stretch Ix1 3 owned 3 1 F => 0 3
stretch Ix2 9 owned 2,3 4,1 C => None
stretch Ix2 3 owned 1,3 -9223372036854775808,1 C => 0 3
stretch Ix2 1 owned 1,1 7,-9 F => 0 1
stretch Ix2 9 owned 2,0 -7,9 C => 0 0
stretch Ix2 9 owned 0,3 3,-1 F => 0 0
stretch Ix2 2 read 2,2 0,1 C => None
stretch Ix0 1 owned - - C => 0 1
stretch IxDyn 6 owned 1,2,1,3,1 9,3,-9,1,9 C => 0 6
stretch IxDyn 6 owned 1,2,1,3,1 9,3,-9,1,9 F => None";
    assert_rows(table, answer);
}
