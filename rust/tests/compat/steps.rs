//! Axes merged, collapsed and moved; shapes broadcast and reshaped.

use crate::{back, fault};
use ndarray_layout::compat::{
    Axis, Dim, Dimension, ErrorKind, Ix0, Ix1, Ix2, Ix3, Ix4, IxDyn, Order, axes_of, co_broadcast, do_collapse_axis,
    incompatible_shapes, merge_axes, move_min_stride_axis_to_last, reshape_dim,
};

#[test]
fn axes_are_told_one_by_one() {
    let (shape, strides) = (Ix3(4, 1, 6), Ix3(6, back(9), 1));
    let axes: Vec<(usize, usize, isize)> =
        axes_of(&shape, &strides).rev().map(|axis| (axis.axis.index(), axis.len, axis.stride)).collect();
    assert_eq!(axes, [(2, 6, 1), (1, 1, -9), (0, 4, 6)]);
}

#[test]
fn shapes_have_one_in_common() {
    assert_eq!(co_broadcast::<_, _, Ix3>(&Ix3(5, 1, 2), &Ix2(7, 1)), Ok(Ix3(5, 7, 2)));
    assert_eq!(co_broadcast::<_, _, Ix2>(&Ix1(0), &Ix2(3, 1)), Ok(Ix2(3, 0)));
    assert_eq!(co_broadcast::<_, _, Ix0>(&Ix0(), &Ix0()), Ok(Ix0()));
    assert_eq!(co_broadcast::<_, _, IxDyn>(&IxDyn(&[6, 1]), &Ix1(4)), Ok(IxDyn(&[6, 4])));
    assert_eq!(fault(co_broadcast::<_, _, Ix2>(&Ix2(2, 3), &Ix1(2))), ErrorKind::IncompatibleShape);
    assert_eq!(incompatible_shapes(&Ix2(2, 3), &Ix1(2)), co_broadcast::<_, _, Ix2>(&Ix2(2, 3), &Ix1(2)).unwrap_err());
}

#[test]
fn a_shape_takes_another_without_a_copy() {
    assert_eq!(reshape_dim(&Ix2(6, 4), &Ix2(8, 2), &Ix3(2, 3, 4), Order::C), Ok(Ix3(24, 8, 2)));
    assert_eq!(reshape_dim(&Ix2(6, 4), &Ix2(8, 2), &Ix1(24), Order::RowMajor), Ok(Ix1(2)));
    assert_eq!(reshape_dim(&Ix1(12), &Ix1(back(3)), &Ix2(4, 3), Order::F), Ok(Ix2(back(3), back(12))));
    assert_eq!(reshape_dim(&IxDyn(&[2, 1, 5]), &IxDyn(&[5, 7, 1]), &Ix1(10), Order::C), Ok(Ix1(1)));
    assert_eq!(fault(reshape_dim(&Ix2(6, 4), &Ix2(9, 2), &Ix1(24), Order::C)), ErrorKind::IncompatibleLayout);
    assert_eq!(fault(reshape_dim(&Ix2(6, 4), &Ix2(4, 1), &Ix2(5, 4), Order::C)), ErrorKind::IncompatibleShape);
}

#[test]
fn an_axis_is_collapsed_in_place() {
    let mut shape = Ix3(4, 5, 6);
    assert_eq!(do_collapse_axis(&mut shape, &Ix3(30, back(6), 1), 1, 4), -24);
    assert_eq!(shape, Ix3(4, 1, 6));
}

/// A layout after `take` is merged into `into`, and whether it was.
fn merged(mut dim: Ix3, mut strides: Ix3, take: usize, into: usize) -> (bool, Ix3, Ix3) {
    let is_merged = merge_axes(&mut dim, &mut strides, Axis(take), Axis(into));
    (is_merged, dim, strides)
}

#[test]
fn axes_are_merged_where_they_go_on() {
    assert_eq!(merged(Ix3(4, 5, 6), Ix3(30, 6, 1), 1, 2), (true, Ix3(4, 1, 30), Ix3(30, 6, 1)));
    assert_eq!(merged(Ix3(4, 5, 6), Ix3(30, 6, 1), 2, 1), (false, Ix3(4, 5, 6), Ix3(30, 6, 1)));
    assert_eq!(merged(Ix3(4, 1, 6), Ix3(30, 6, 1), 2, 1), (true, Ix3(4, 6, 1), Ix3(30, 1, 1)));
    assert_eq!(merged(Ix3(4, 0, 6), Ix3(30, 6, 1), 1, 0), (true, Ix3(0, 0, 6), Ix3(30, 6, 1)));
}

#[test]
fn the_axis_of_least_stride_becomes_the_last() {
    let (mut dim, mut strides) = (Ix4(4, 5, 6, 7), Ix4(back(2), 56, 280, 8));
    move_min_stride_axis_to_last(&mut dim, &mut strides);
    assert_eq!((dim, strides), (Ix4(7, 5, 6, 4), Ix4(8, 56, 280, back(2))));
    let (mut dim, mut strides) = (Dim(4), Dim(9));
    move_min_stride_axis_to_last(&mut dim, &mut strides);
    assert_eq!((dim.into_pattern(), strides.into_pattern()), (4, 9));
}
