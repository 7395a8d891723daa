// Made by `rust/erase` of `crates/nd_slice/src/bounds.rt`: edit that.
//! The coordinates that an index and the bounds of a slice mean on an axis.

use crate::nd_base::{ErrorKind, ShapeError, from_kind};
use crate::nd_slice::fit::Fit;
use crate::nd_slice::slice::Slice;
use crate::num_traits::clamp;

/// The coordinate that an index means on an axis of `len` coordinates, counted from 0: the index
/// itself, or `len + index` where it is negative.
///
/// -1 on an axis of 4: 3. ndarray's `abs_index`.
///
/// # Conditions
///
/// The caller ensures that the index is at least `-len`; the result may be past the axis. Otherwise this call or a
/// later one panics or returns unspecified values.
///
/// <details><summary>Contract (proved)</summary>
///
/// ```text
/// requires pos 0 ≤ℤ meaning len index
/// ensures pos result ≡ meaning len index
/// ```
/// [How to read it](crate::contracts)
/// </details>
#[must_use]
#[inline]
pub fn abs_index(len: usize, index: isize) -> usize {
    let distance = index.unsigned_abs();
    if index < 0 { len - distance } else { distance }
}

/// The coordinate that an index means on an axis of `len` coordinates, as `abs_index` returns it.
///
/// -1 on an axis of 4: 3. The project's own.
///
/// # Errors
///
/// `OutOfBounds` where the index is not from `-len` to `len - 1`.
///
/// <details><summary>Contract (proved)</summary>
///
/// ```text
/// ensures fault: result_err result ≡ index_fault len index
/// ensures coordinate: IfOk result (λ coordinate. pos coordinate ≡ meaning len index)
/// ```
/// [How to read it](crate::contracts)
/// </details>
#[inline(always)]
pub fn coordinate_of(len: usize, index: isize) -> Result<usize, ShapeError> {
    let distance = index.unsigned_abs();
    if distance < len || (distance == len && index < 0) {
        Ok(abs_index(len, index))
    } else {
        Err(from_kind(ErrorKind::OutOfBounds))
    }
}

/// The coordinate that a bound of a range means, from 0 to `len`. Any other is `OutOfBounds`, or is moved
/// to the nearer end of the axis.
///
/// <details><summary>Contract (proved)</summary>
///
/// ```text
/// ensures value: OkIff result (IsTrue (is_bound len (bound_meaning fit len bound)))
///     (magnitude (bound_meaning fit len bound))
/// ensures fault: IsOkUnless result ErrorKind.OutOfBounds
/// ```
/// [How to read it](crate::contracts)
/// </details>
#[inline(always)]
fn abs_bound(len: usize, bound: isize, fit: Fit) -> Result<usize, ShapeError> {
    let distance = match fit {
        Fit::Strict => bound.unsigned_abs(),
        Fit::Clamp => clamp(bound.unsigned_abs(), 0, len),
    };
    if distance > len {
        Err(from_kind(ErrorKind::OutOfBounds))
    } else if bound < 0 {
        Ok(len - distance)
    } else {
        Ok(distance)
    }
}

/// The start, the end and the step of a slice on an axis of `len` coordinates, with both bounds
/// counted from 0.
///
/// Both are from 0 to `len`, and an end before the start becomes the start.
///
/// `-3..;-2` on an axis of 4: (1, 4, -2). ndarray's `to_abs_slice`.
///
/// # Errors
///
/// `OutOfBounds` where a bound means no number from 0 to `len` (never with `Fit::Clamp`); then
/// `Unsupported` for the step 0.
///
/// <details><summary>Contract (proved)</summary>
///
/// ```text
/// ensures fault: result_err result ≡ slice_fault fit len slice
/// ensures fits: IsOk result ↔ SliceFits fit len slice
/// ensures start: IfOk result (λ (start, end, step). pos start ≡ start_meaning fit len slice)
/// ensures end: IfOk result (λ (start, end, step). end ≡ max start (magnitude (end_meaning fit len slice)))
/// ensures order: IfOk result (λ (start, end, step). start ≤ end)
/// ensures within: IfOk result (λ (start, end, step). end ≤ len)
/// ensures step: IfOk result (λ (start, end, step). step ≡ slice.step)
/// ```
/// [How to read it](crate::contracts)
/// </details>
#[inline]
pub fn to_abs_slice(len: usize, slice: Slice, fit: Fit) -> Result<(usize, usize, isize), ShapeError> {
    let start = abs_bound(len, slice.start, fit)?;
    let end = match slice.end {
        Some(end) => abs_bound(len, end, fit)?,
        None => len,
    };
    if slice.step == 0 {
        return Err(from_kind(ErrorKind::Unsupported));
    }
    Ok((start, end.max(start), slice.step))
}
