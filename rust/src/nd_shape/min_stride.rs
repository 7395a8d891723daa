// Made by `rust/erase` of `crates/nd_shape/src/min_stride.rt`: edit that.
//! The axis of the least stride, as the last one.

use crate::nd_base::Lengths;
use crate::nd_dim::magnitude_at;

/// The axis whose stride is of least magnitude among those of length greater than 1, and the first of
/// these where several are; the last axis where there is none.
///
/// <details><summary>Contract (proved)</summary>
///
/// ```text
/// requires some_axis: 0 < length lens.now
/// requires same_count: length lens.now ≡ length strides.now
/// ensures IsFirstLeastAxis lens.now (all_signed strides.now) result
/// ```
/// [How to read it](crate::contracts)
/// </details>
#[inline(always)]
fn first_least_axis(lens: &[usize], strides: &[usize]) -> usize {
    let mut least = lens.len() - 1;
    for axis in (0..lens.len()).rev() {
        if lens[axis] > 1 && (lens[least] <= 1 || magnitude_at(strides, axis) <= magnitude_at(strides, least)) {
            least = axis;
        }
    }
    least
}

/// Whether two axes are to be turned.
///
/// <details><summary>Contract (proved)</summary>
///
/// ```text
/// requires two: length lens.now ≡ 2
/// requires same_count: length lens.now ≡ length strides.now
/// ensures result ≡ are_swapped_by_rule lens.now (all_signed strides.now)
/// ```
/// [How to read it](crate::contracts)
/// </details>
#[inline(always)]
fn are_swapped(lens: &[usize], strides: &[usize]) -> bool {
    lens[1] <= 1 || lens[0] > 1 && magnitude_at(strides, 0) < magnitude_at(strides, 1)
}

/// The axis that changes places with the last one.
///
/// <details><summary>Contract (proved)</summary>
///
/// ```text
/// requires some_axis: 0 < length lens.now
/// requires same_count: length lens.now ≡ length strides.now
/// ensures axis: IsAxisToMove lens.now (all_signed strides.now) result
/// ensures exists: result < length lens.now
/// ```
/// [How to read it](crate::contracts)
/// </details>
#[inline(always)]
fn axis_to_move(lens: &[usize], strides: &[usize]) -> usize {
    if lens.len() == 2 { if are_swapped(lens, strides) { 0 } else { 1 } } else { first_least_axis(lens, strides) }
}

/// Swaps the axis whose stride is of least magnitude with the last one.
///
/// Of three axes or more it is the first of the least stride among those of length greater than 1; where there is none,
/// nothing changes. Two axes are swapped where the last has at most length 1, or where the first has a greater length
/// and a stride of less magnitude than the last. Fewer axes are unchanged.
///
/// Takes time in proportion to the count of axes.
///
/// `[2,3,4]` with the strides `[1,8,2]`: `[4,3,2]` with `[2,8,1]`. ndarray's
/// `move_min_stride_axis_to_last`.
///
/// # Conditions
///
/// The caller ensures that there are as many strides as axes. Otherwise this call or a later one panics or returns
/// unspecified values.
///
/// <details><summary>Contract (proved)</summary>
///
/// ```text
/// requires length (D.list dim.old) ≡ length (D.list strides.old)
/// ensures moved: (axis : ℕ)
///     × (0 < length (D.list dim.old) →
///     IsAxisToMove (D.list dim.old) (all_signed (D.list strides.old)) axis)
///     × (D.list dim.new ≡ swap (D.list dim.old) axis (length (D.list dim.old) - 1))
///     × (D.list strides.new ≡ swap (D.list strides.old) axis (length (D.list dim.old) - 1))
/// ```
/// [How to read it](crate::contracts)
/// </details>
#[inline]
pub fn move_min_stride_axis_to_last<D: Lengths>(dim: &mut D, strides: &mut D) {
    let ndim = dim.ndim();
    if ndim > 0 {
        let axis = axis_to_move(dim.slice(), strides.slice());
        dim.slice_mut().swap(axis, ndim - 1);
        strides.slice_mut().swap(axis, ndim - 1);
    }
}
