// Made by `rust/erase` of `crates/nd_shape/src/merge.rt`: edit that.
//! Two axes as one.

use crate::nd_base::{Axis, Lengths, signed, stride_offset};

/// Whether a stride goes on where another axis ends: whether it is `len` times `other`, which are that axis' length and
/// stride.
///
/// Strides are in elements, with their sign (`signed`).
///
/// A stride 6 after the length 3 with the stride 2: true, for 0 2 4 is followed by 6; a stride 5: false. The test of
/// ndarray's `merge_axes`.
///
/// # Conditions
///
/// The caller ensures that the axis has more than one coordinate, and that both strides are of one valid layout
/// (`span_of_lengths`): the reach of the other axis and one step of this one fit. Otherwise this call or a later one
/// panics or returns unspecified values.
///
/// # Examples
///
/// ```
/// use ndarray_layout::{goes_on, unsigned};
///
/// assert!(goes_on(6, 3, 2));
/// assert!(!goes_on(5, 3, 2));
/// assert!(goes_on(unsigned(-6), 3, unsigned(-2)));
/// ```
///
/// <details><summary>Contract (proved)</summary>
///
/// ```text
/// requires long: 1 < len
/// requires small: len ≤ limit
/// requires fits: magnitude (signed_reading stride) + reach len (signed_reading other) ≤ limit
/// ensures IsTrue result ↔ (signed_reading stride ≡ pos len *ℤ signed_reading other)
/// ```
/// [How to read it](crate::contracts)
/// </details>
#[must_use]
#[inline(always)]
pub fn goes_on(stride: usize, len: usize, other: usize) -> bool {
    // (from the other axis' second coordinate on, since the whole length may pass 64 bits)
    signed(stride) - signed(other) == stride_offset(len - 1, other)
}

/// Merges the axis `take` into the axis `into` where one stride serves for the coordinates of both,
/// and returns whether it did.
///
/// Then the axis `into` has all of them, that of `take` moving slowest, and `take` keeps a length of 1, or of 0 where
/// there are none. Where it returns false, `shape` and `strides` are unchanged. They are one number for each axis,
/// strides in elements and with their sign (`signed`).
///
/// `[3,2]` with the strides `[2,1]`, 0 into 1: `[1,6]` with `[2,1]`. The rule over lists of ndarray's
/// `merge_axes`.
///
/// # Conditions
///
/// The caller ensures that the layout is valid (`span_of_lengths`), and that the axes are two different ones that it
/// has. Otherwise this call or a later one panics or returns unspecified values.
///
/// <details><summary>Contract (proved)</summary>
///
/// ```text
/// requires valid: IsValidLayout shape.old (all_signed strides.old)
/// requires take: take < length shape.old
/// requires into: into < length shape.old
/// requires apart: take ≢ into
/// ensures fits: IsTrue result ↔ MergeFits
///     (slice_index shape.old take)
///     (signed_reading (slice_index strides.old take))
///     (slice_index shape.old into)
///     (signed_reading (slice_index strides.old into))
/// ensures shape: shape.new ≡ (if result then merged_shape take into shape.old else shape.old)
/// ensures strides: strides.new ≡ (if result then merged_strides take into shape.old strides.old else strides.old)
/// ensures serves: OnTrue result (IsMergedStride
///     (slice_index shape.old take)
///     (signed_reading (slice_index strides.old take))
///     (slice_index shape.old into)
///     (signed_reading (slice_index strides.old into))
///     (signed_reading (slice_index strides.new into)))
/// ```
/// [How to read it](crate::contracts)
/// </details>
#[must_use]
#[inline(always)]
pub fn merge_fitting(shape: &mut [usize], strides: &mut [usize], take: usize, into: usize) -> bool {
    let (take_len, into_len) = (shape[take], shape[into]);
    let (take_stride, into_stride) = (strides[take], strides[into]);
    if take_len > 1 {
        if into_len <= 1 {
            strides[into] = take_stride;
        } else if !goes_on(take_stride, into_len, into_stride) {
            return false;
        }
    }
    let merged_len = into_len * take_len;
    shape[into] = merged_len;
    shape[take] = if merged_len == 0 { 0 } else { 1 };
    true
}

/// Merges the axis `take` into the axis `into`, as `merge_fitting` does, and returns whether it
/// did; where it returns false, nothing has changed.
///
/// `dim` has the lengths and `strides` the strides.
///
/// `[3,2]` with the strides `[2,1]`, 0 into 1: true, `[1,6]` with `[2,1]`. ndarray's `merge_axes`.
///
/// # Conditions
///
/// The caller ensures that the layout is valid (`max_abs_offset_check_overflow`), and that the axes are two different
/// ones that it has. Otherwise this call or a later one panics or returns unspecified values.
///
/// <details><summary>Contract (proved)</summary>
///
/// ```text
/// requires valid: IsValidLayout (D.list dim.old) (all_signed (D.list strides.old))
/// requires take: take.0 < length (D.list dim.old)
/// requires into: into.0 < length (D.list dim.old)
/// requires apart: take.0 ≢ into.0
/// ensures fits: IsTrue result ↔ MergeFits
///     (slice_index (D.list dim.old) take.0)
///     (signed_reading (slice_index (D.list strides.old) take.0))
///     (slice_index (D.list dim.old) into.0)
///     (signed_reading (slice_index (D.list strides.old) into.0))
/// ensures shape: D.list dim.new ≡ (if result then merged_shape take.0 into.0 (D.list dim.old) else D.list dim.old)
/// ensures strides: D.list strides.new ≡
///     (if result
///     then merged_strides take.0 into.0 (D.list dim.old) (D.list strides.old)
///     else D.list strides.old)
/// ensures serves: OnTrue result (IsMergedStride
///     (slice_index (D.list dim.old) take.0)
///     (signed_reading (slice_index (D.list strides.old) take.0))
///     (slice_index (D.list dim.old) into.0)
///     (signed_reading (slice_index (D.list strides.old) into.0))
///     (signed_reading (slice_index (D.list strides.new) into.0)))
/// ```
/// [How to read it](crate::contracts)
/// </details>
#[must_use]
#[inline]
pub fn merge_axes<D: Lengths>(dim: &mut D, strides: &mut D, take: Axis, into: Axis) -> bool {
    merge_fitting(dim.slice_mut(), strides.slice_mut(), take.index(), into.index())
}
