// Made by `rust/erase` of `crates/nd_slice/src/collapse.rt`: edit that.
//! One coordinate of an axis.

use crate::nd_base::{Axis, Lengths, set_axis_of, stride_offset};

/// Reduces an axis to one of its coordinates, in place. Returns the offset in elements, with its
/// sign, from coordinate 0 to that one.
///
/// `dims` has the lengths and `strides` the strides in elements. The axis then has length 1, and its stride is
/// unchanged.
///
/// Axis 0 of `[2,3]`, `[3,1]` at 1: the offset 3 and the shape `[1,3]`. ndarray's
/// `do_collapse_axis`.
///
/// # Conditions
///
/// The caller ensures that the layout is valid, that there is the axis, and that `index` is below its length. Otherwise
/// this call or a later one panics or returns unspecified values.
///
/// <details><summary>Contract (proved)</summary>
///
/// ```text
/// requires valid: IsValidLayout (D.list dims.old) (all_signed (D.list strides.now))
/// requires exists: axis < length (D.list dims.old)
/// requires below: index < slice_index (D.list dims.old) axis
/// ensures dims: D.list dims.new ≡ slice_set (D.list dims.old) axis 1
/// ensures offset: result ≡ pos index *ℤ signed_reading (slice_index (D.list strides.now) axis)
/// ```
/// [How to read it](crate::contracts)
/// </details>
#[inline]
#[must_use]
pub fn do_collapse_axis<D: Lengths>(dims: &mut D, strides: &D, axis: usize, index: usize) -> isize {
    let offset = stride_offset(index, strides.slice()[axis]);
    set_axis_of(dims.slice_mut(), Axis(axis), 1);
    offset
}
