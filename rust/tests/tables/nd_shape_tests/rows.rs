// Made by `rust/erase` of `crates/nd_shape_tests/src/rows.rt`: edit that.
//! The worked rows.
//!
//! Strides are written with their sign. `can_index_slice` and `max_abs_offset_check_overflow` take a shape, strides,
//! and then the size of an element, with the count of elements where the call takes one; where nothing fails the
//! answer is `none`.

use crate::nd_shape_tests::calls::hold;

/// Layouts without an index, and one whose places are shared.
const R1: &str = "\
can_index_slice_owned 0,2 2,1 1,0 => OutOfBounds
can_index_slice_owned 0,2 2,1 1,1 / 1,2 -9223372036854775808,1 1,2 => none
can_index_slice_owned 3,2 2,3 1,8 => Unsupported
can_index_slice_read 3,2 2,3 1,8 => none
dim_stride_overlap 3,2 2,3 => true";

#[test]
fn r1_rows() {
    hold(R1);
}

/// What the calls of a dimension answer.
const R2: &str = "\
stride_axes 1,3,2 0,2,6 => 1 2
is_contiguous 2,3 -3,-1 / 2,3 1,2 / 5 -1 => true
is_contiguous 3,2 2,3 / 5 2 => false
size_checked 1099511627776,1099511627776,0 => 0
own_strides 3,4,5 => 20,5,1 1,3,12
own_strides 2,0,3 => 0,0,0 0,0,0";

#[test]
fn r2_rows() {
    hold(R2);
}

/// Layouts over elements of four bytes.
const ACCEPTED: &str = "\
can_index_slice_owned 2,3,2 1,2,6 4,12 / 1 -1 4,1 / 2 -1 4,2 / 1,2 5,1 4,2 / 2,2 3,1 4,5 / 0,2 0,0 4,0 => none
can_index_slice_owned 2,3,2 2,4,12 4,12 / 1,2 5,1 4,1 / 2,2 3,1 4,4 / 2,2,3 6,3,1 4,11 / 1 0 4,0 => OutOfBounds
can_index_slice_owned 2 0 4,2 / 2,2 1,1 4,4 => Unsupported
can_index_slice_read 2,2 1,1 4,4 => none
can_index_slice_owned 0,0,1 2,1,3 4,0 / 2,2,3 6,3,1 4,12 / 0 0 4,0 / 0 1 4,0 / 0,0 0,0 4,0 / 0,0 2,1 4,0 => none
can_index_slice_owned 0,1 0,0 4,0 / 0,1 2,1 4,0 / 1 0 4,1 / 1 2 4,1 / 1,1,1 2,1,3 4,1 / 2 1 4,2 => none
can_index_slice_owned 1 1 4,0 / 0,2 2,1 4,0 / 1,1,1 2,1,3 4,0 / 2 1 4,1 / 1,2 5,2 4,2 => OutOfBounds";

/// Layouts of elements without a size, of other counts of axes, and past the limits.
const R3: &str = "\
can_index_slice_owned 2 1 0,2 / 0 1 0,0 / 0,2 0,0 0,0 / 1 1 0,1 / 2,1 1,0 0,2 / - - 1,1 / 2,2,2 4,-2,1 1,8 => none
can_index_slice_owned 2 1 0,1 / 0,2 2,1 0,0 / 1 1 0,0 / - - 1,0 => OutOfBounds
index_checked - - - => 0
can_index_slice_owned 1,9223372036854775807,2 1,1,1 1,0 => Overflow
can_index_slice_read 1,9223372036854775807,2 1,1,1 1,9223372036854775807 => Overflow
can_index_slice_owned 2,3 1 1,9 => IncompatibleLayout
offset_from_low_addr_ptr_to_logical_ptr 2,2,2 4,-2,1 => 2
can_index_slice_owned 2,2,2 3,2,1 1,8 => Unsupported
offset_from_low_addr_ptr_to_logical_ptr 2,3 -3,-1 => 5
max_abs_offset_check_overflow 1,9223372036854775807,1 1,1,1 1 => 9223372036854775806
max_abs_offset_check_overflow 0,2,2 1,9223372036854775807,1 1 / 0,2,2 1,2305843009213693951,1 4 => Overflow
dim_stride_overlap 2,3,2 5,2,1 / 2,3,2 -5,2,-1 / 2,3,2 6,0,1 / 2,3,2 -6,0,1 => true
dim_stride_overlap 2,3,2 6,2,1 / 2,3,2 6,-2,1 / 2,2 3,2 / 2,2 3,-2 => false
index_checked 2,3 3,1 1,2 => 5
index_checked 2,3 3,1 1 => None
axes_of 2,3,4 12,-4,1 => 0 2 12 2 4 1 1 3 -4";

#[test]
fn r3_rows() {
    hold(ACCEPTED);
    hold(R3);
}

/// Common shapes, merged and moved axes.
const R5: &str = "\
co_broadcast 2,1,1 0,0,1,3,4 => 0,0,2,3,4
co_broadcast 1,2,2 1,3,4 / 2,1,2 0 / 1,3,0,1,1 1,2,3,1 => IncompatibleShape
co_broadcast 2,3 4,1,3 => 4,2,3
co_broadcast 3,4,5 - => 3,4,5
co_broadcast 1,1,3,1,5,1,7 2,1,4,1,6,1 => 1,2,3,4,5,6,7
co_broadcast 0 0,0,0 => 0,0,0
co_broadcast 1 1,0,0 => 1,0,0
co_broadcast 1,2,1,3 1,2,1,3 => 1,2,1,3
merge_axes 3,2 2,1 0,1 => true 1,6 2,1
merge_axes 3,2 2,1 1,0 => false 3,2 2,1
merge_axes 1,0 0,0 0,1 => true 0,0 0,0
move_min_stride_axis_to_last 1,1 7,9 => moved 1,1 9,7
move_min_stride_axis_to_last 2,3,4 1,8,2 => moved 4,3,2 2,8,1";

#[test]
fn r5_rows() {
    hold(R5);
}

/// Iterators over all indices: how many there are, and the indices.
const R7: &str = "\
all_indices 2,2 => 4 0,0 0,1 1,0 1,1
indices_iter_f 2,2 => 4 0,0 1,0 0,1 1,1
all_indices - => 1 -
indices_iter_f - => 1 -
all_indices 2,0,3 => 0
indices_iter_f 2,0,3 => 0
all_indices 3,4 => 12 0,0 0,1 0,2 0,3 1,0 1,1 1,2 1,3 2,0 2,1 2,2 2,3
indices_iter_f 3,4 => 12 0,0 1,0 2,0 0,1 1,1 2,1 0,2 1,2 2,2 0,3 1,3 2,3
all_indices 1099511627776,1099511627776,0 => 0
indices_iter_f 1099511627776,1099511627776,0 => 0
size_of_shape_checked 1099511627776,1099511627776,0 => Overflow
IndexCursor 2,1,2 => 4 0,0,0 0,0,1 1,0,0 1,0,1
IndexCursorF 2,1,2 => 4 0,0,0 1,0,0 0,0,1 1,0,1
IndexCursor - => 1 -
IndexCursorF - => 1 -
IndexCursor 0,1099511627776,1099511627776 => 0
IndexCursorF 2,0,3 => 0";

#[test]
fn r7_rows() {
    hold(R7);
}

/// The ends of the types.
const R12: &str = "\
max_abs_offset_check_overflow 2 -9223372036854775808 1 => Overflow
max_abs_offset_check_overflow 1 -9223372036854775808 1 => 0
can_index_slice_owned 9223372036854775807 1 0,9223372036854775807 => none
can_index_slice_owned 9223372036854775807 1 0,9223372036854775806 => OutOfBounds
can_index_slice_owned 9223372036854775807 1 2,9223372036854775807 => Overflow
size_of_shape_checked 0,9223372036854775807 => 0
size_of_shape_checked 0,9223372036854775808 => Overflow
offset_from_low_addr_ptr_to_logical_ptr 2 -9223372036854775807 => 9223372036854775807
merge_axes 2,2 1,9223372036854775806 0,1 => false 2,2 1,9223372036854775806
_fastest_varying_stride_order -9223372036854775808,1,-1 => 1,2,0
stride_axes 2,2,1 -9223372036854775808,9223372036854775807,0 => 1 0
is_contiguous 1,2 -9223372036854775808,1 => true
all_indices 0,18446744073709551615 => 0
all_indices 18446744073709551615 => 18446744073709551615 0
indices_iter_f 18446744073709551615 => 18446744073709551615 0
IndexCursor 4294967295,4294967297 => 18446744073709551615 0,0";

/// More of them, where a body that is only slow never ends.
const LARGE: &str = "\
dim_stride_overlap 4611686018427387903,2 2,1 => false
index_checked 9223372036854775807 -1 9223372036854775806 => -9223372036854775806
can_index_slice_owned 4611686018427387903,2 -1,-4611686018427387903 1,9223372036854775806 => none
merge_axes 2,4611686018427387903 4611686018427387903,1 0,1 => true 1,9223372036854775806 4611686018427387903,1";

#[test]
fn r12_rows() {
    hold(R12);
    hold(LARGE);
}
