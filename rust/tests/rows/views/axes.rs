//! Axes in another order or backwards, one less and one more.

use super::calls::answer;
use super::layout::{read_view, told};
use crate::table::{Words, assert_rows};
use ndarray_layout::{Axis, Dimension, LayoutError, Lengths, RemoveAxis, Strided};

/// `LEN owned|read SHAPE STRIDES AXES => VIEW`, or the fault.
pub fn moved<D: Lengths>(call: &str, words: &mut Words) -> String {
    let (view, axes): (Strided<D>, Vec<Axis>) = (read_view(words), words.list().into_iter().map(Axis).collect());
    told(match call {
        "swap_axes" => changed(view, |view| Ok(view.swap_axes(axes[0], axes[1])?)),
        "invert_axis" => changed(view, |view| Ok(view.invert_axis(axes[0])?)),
        "reversed_axes" => Ok(view.reversed_axes()),
        _ => view.permuted_axes(&axes),
    })
}

/// A view after a change that succeeds.
fn changed<D: Lengths>(
    mut view: Strided<D>,
    change: impl Fn(&mut Strided<D>) -> Result<(), LayoutError>,
) -> Result<Strided<D>, LayoutError> {
    change(&mut view)?;
    Ok(view)
}

/// `LEN owned|read SHAPE STRIDES AXIS INDEX => VIEW`, or the fault: one coordinate, without the axis.
pub fn indexed<D: RemoveAxis>(words: &mut Words) -> String {
    let view: Strided<D> = read_view(words);
    told(view.index_axis(Axis(words.number()), words.number()))
}

/// `LEN owned|read SHAPE STRIDES AXIS => VIEW`, or the fault: a new axis.
pub fn inserted<D: Dimension>(words: &mut Words) -> String {
    let view: Strided<D> = read_view(words);
    told(view.insert_axis(Axis(words.number())))
}

#[test]
fn axes_that_are_swapped() {
    let table = "\
swap_axes Ix2 6 owned 2,3 3,1 0,1 => 3,2 1,3 0 0,3,1,4,2,5
swap_axes Ix2 6 owned 2,3 -3,-1 1,0 => 3,2 -1,-3 5 5,2,4,1,3,0
swap_axes Ix3 6 read 1,2,3 6,3,1 2,0 => 3,2,1 1,3,6 0 0,3,1,4,2,5
swap_axes Ix2 6 owned 2,3 3,1 1,1 => 2,3 3,1 0 0,1,2,3,4,5
swap_axes Ix2 2 owned 0,3 3,1 0,1 => 3,0 1,3 0 -
swap_axes Ix2 2 owned 1,2 -9223372036854775808,1 0,1 => 2,1 1,-9223372036854775808 0 0,1
swap_axes IxDyn 3 read 1,1,1,1,3 9,8,7,6,1 4,0 => 3,1,1,1,1 1,8,7,6,9 0 0,1,2
swap_axes Ix2 6 owned 2,3 3,1 0,2 => OutOfBounds
swap_axes Ix2 6 owned 2,3 3,1 18446744073709551615,0 => OutOfBounds
swap_axes Ix1 4 owned 4 1 1,1 => OutOfBounds
swap_axes Ix0 1 owned - - 0,0 => OutOfBounds";
    assert_rows(table, answer);
}

#[test]
fn axes_that_are_reversed() {
    let table = "\
reversed_axes Ix0 1 owned - - - => - - 0 0
reversed_axes Ix1 3 owned 3 -1 - => 3 -1 2 2,1,0
reversed_axes Ix2 6 owned 2,3 3,1 - => 3,2 1,3 0 0,3,1,4,2,5
reversed_axes Ix3 12 owned 2,3,2 6,2,1 - => 2,3,2 1,2,6 0 0,6,2,8,4,10,1,7,3,9,5,11
reversed_axes IxDyn 4 owned 1,2,1,2,1 9,2,9,1,9 - => 1,2,1,2,1 9,1,9,2,9 0 0,2,1,3";
    assert_rows(table, answer);
}

#[test]
fn axes_in_an_order() {
    let table = "\
permuted_axes Ix0 1 owned - - - => - - 0 0
permuted_axes Ix2 6 owned 2,3 3,1 1,0 => 3,2 1,3 0 0,3,1,4,2,5
permuted_axes Ix2 6 owned 2,3 3,1 0,1 => 2,3 3,1 0 0,1,2,3,4,5
permuted_axes Ix3 12 owned 2,3,2 6,2,1 2,0,1 => 2,2,3 1,6,2 0 0,2,4,6,8,10,1,3,5,7,9,11
permuted_axes Ix3 12 owned 2,3,2 6,-2,1 1,2,0 => 3,2,2 -2,1,6 4 4,10,5,11,2,8,3,9,0,6,1,7
permuted_axes Ix2 2 owned 1,2 -9223372036854775808,1 1,0 => 2,1 1,-9223372036854775808 0 0,1
permuted_axes Ix2 2 owned 0,3 3,1 1,0 => 3,0 1,3 0 -
permuted_axes IxDyn 4 owned 1,2,1,2,1 9,2,9,1,9 3,1,0,2,4 => 2,2,1,1,1 1,2,9,9,9 0 0,2,1,3
permuted_axes Ix2 6 owned 2,3 3,1 1 => IncompatibleShape
permuted_axes Ix2 6 owned 2,3 3,1 0,1,0 => IncompatibleShape
permuted_axes Ix2 6 owned 2,3 3,1 1,1 => IncompatibleShape
permuted_axes Ix2 6 owned 2,3 3,1 0,2 => IncompatibleShape
permuted_axes IxDyn 4 owned 1,2,1,2,1 9,2,9,1,9 3,1,0,2,3 => IncompatibleShape
permuted_axes IxDyn 1 owned - - 18446744073709551615 => IncompatibleShape";
    assert_rows(table, answer);
}

#[test]
fn axes_backwards() {
    let table = "\
invert_axis Ix1 5 owned 3 2 0 => 3 -2 4 4,2,0
invert_axis Ix1 5 owned 3 -2 0 => 3 2 0 0,2,4
invert_axis Ix2 6 owned 2,3 3,1 0 => 2,3 -3,1 3 3,4,5,0,1,2
invert_axis Ix2 6 owned 2,3 3,1 1 => 2,3 3,-1 2 2,1,0,5,4,3
invert_axis Ix2 4 read 3,2 0,1 0 => 3,2 0,1 0 0,1,0,1,0,1
invert_axis Ix1 1 owned 1 7 0 => 1 -7 0 0
invert_axis Ix2 9 owned 0,3 3,1 0 => 0,3 -3,1 0 -
invert_axis Ix2 9 owned 0,3 3,1 1 => 0,3 3,-1 2 -
invert_axis Ix2 2 owned 1,2 -9223372036854775808,1 0 => 1,2 -9223372036854775808,1 0 0,1
invert_axis Ix1 1 owned 1 9223372036854775807 0 => 1 -9223372036854775807 0 0
invert_axis IxDyn 12 owned 2,1,3,1,2 -6,9,1,9,3 2 => 2,1,3,1,2 -6,9,-1,9,3 8 8,11,7,10,6,9,2,5,1,4,0,3
invert_axis Ix2 6 owned 2,3 3,1 2 => OutOfBounds
invert_axis Ix0 1 owned - - 0 => OutOfBounds
invert_axis IxDyn 6 owned 2,3 3,1 18446744073709551615 => OutOfBounds";
    assert_rows(table, answer);
}

#[test]
fn an_axis_less() {
    let table = "\
index_axis Ix2 6 owned 2,3 3,1 0 1 => 3 1 3 3,4,5
index_axis Ix2 6 owned 2,3 3,1 1 2 => 2 3 2 2,5
index_axis Ix2 6 owned 2,3 -3,-1 0 0 => 3 -1 5 5,4,3
index_axis Ix2 6 owned 2,3 -3,-1 1 2 => 2 -3 3 3,0
index_axis Ix1 5 owned 3 2 0 2 => - - 4 4
index_axis Ix2 2 owned 1,2 -9223372036854775808,1 0 0 => 2 1 0 0,1
index_axis Ix2 9 owned 0,3 3,1 1 2 => 0 3 2 -
index_axis IxDyn 12 owned 2,1,3,1,2 -6,9,1,9,3 2 1 => 2,1,1,2 -6,9,9,3 7 7,10,1,4
index_axis IxDyn 12 owned 2,1,3,1,2,1 -6,9,1,9,3,9 0 1 => 1,3,1,2,1 9,1,9,3,9 0 0,3,1,4,2,5
index_axis Ix2 6 owned 2,3 3,1 0 2 => OutOfBounds
index_axis Ix2 6 owned 2,3 3,1 2 0 => OutOfBounds
index_axis Ix2 9 owned 0,3 3,1 0 0 => OutOfBounds
index_axis IxDyn 1 owned - - 0 0 => OutOfBounds
index_axis IxDyn 6 owned 2,3 3,1 18446744073709551615 0 => OutOfBounds
index_axis Ix1 5 owned 3 2 0 18446744073709551615 => OutOfBounds";
    assert_rows(table, answer);
}

#[test]
fn an_axis_more() {
    let table = "\
insert_axis Ix2 6 owned 2,3 3,1 0 => 1,2,3 1,3,1 0 0,1,2,3,4,5
insert_axis Ix2 6 owned 2,3 -3,1 1 => 2,1,3 -3,1,1 3 3,4,5,0,1,2
insert_axis Ix2 6 owned 2,3 3,1 2 => 2,3,1 3,1,1 0 0,1,2,3,4,5
insert_axis Ix0 1 owned - - 0 => 1 1 0 0
insert_axis Ix2 9 owned 0,3 3,1 2 => 0,3,1 3,1,1 0 -
insert_axis Ix6 2 owned 1,1,1,1,1,2 9,9,9,9,9,1 3 => 1,1,1,1,1,1,2 9,9,9,1,9,9,1 0 0,1
insert_axis IxDyn 12 owned 2,1,3,1,2 -6,9,1,9,3 5 => 2,1,3,1,2,1 -6,9,1,9,3,1 6 6,9,7,10,8,11,0,3,1,4,2,5
insert_axis IxDyn 1 owned - - 0 => 1 1 0 0
insert_axis Ix2 6 owned 2,3 3,1 3 => OutOfBounds
insert_axis Ix0 1 owned - - 1 => OutOfBounds
insert_axis IxDyn 6 owned 2,3 3,1 18446744073709551615 => OutOfBounds";
    assert_rows(table, answer);
}
