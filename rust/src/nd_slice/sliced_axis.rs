// Made by `rust/erase` of `crates/nd_slice/src/sliced_axis.rt`: edit that.
//! What a slice leaves of an axis.

use crate::nd_base::ShapeError;
use crate::nd_slice::fit::Fit;
use crate::nd_slice::picks::resolve_slice;
use crate::nd_slice::slice::Slice;

/// Slices one axis in place. Returns the offset in elements, with its sign, from the axis's first
/// coordinate to the first one that the slice picks; 0 where it picks none.
///
/// `dim` is the length of the axis and `stride` its stride in elements. Afterwards `dim` is how many coordinates are
/// picked, and `stride` the distance between two of them, 0 where there is at most one.
///
/// Length 4, stride 1, `1..;-2`: the offset 3, length 2, stride -2. ndarray's `do_slice`.
///
/// # Errors
///
/// `OutOfBounds` where a bound means no number from 0 to the length (never with `Fit::Clamp`);
/// then `Unsupported` for the step 0. The length and the stride are unchanged after an error.
///
/// # Conditions
///
/// The caller ensures that the length and (length - 1) * |stride| are at most `isize::MAX`. Otherwise this call or a
/// later one panics or returns unspecified values.
///
/// <details><summary>Contract (proved)</summary>
///
/// ```text
/// requires len_fits: dim.old < 2 ^ 63
/// requires span_fits: reach dim.old (signed_reading stride.old) ≤ limit
/// ensures fault: result_err result ≡ slice_fault fit dim.old slice
/// ensures len: OnOk result (dim.new ≡ length (picks fit dim.old slice))
/// ensures stride: OnOk result (signed_reading stride.new
///     ≡ picked_stride (length (picks fit dim.old slice)) (signed_reading stride.old) slice.step)
/// ensures offset: IfOk result (λ offset. offset ≡ first_offset (picks fit dim.old slice) (signed_reading stride.old))
/// ensures steps: IfOk result (λ offset. (j : ℕ) → j < dim.new →
///     pos (slice_index (picks fit dim.old slice) j) *ℤ signed_reading stride.old
///     ≡ offset +ℤ (pos j *ℤ signed_reading stride.new))
/// ensures within: OnOk result ((j : ℕ) → j < dim.new → slice_index (picks fit dim.old slice) j < dim.old)
/// ensures unchanged: OnErr result ((dim.new ≡ dim.old) × (stride.new ≡ stride.old))
/// ```
/// [How to read it](crate::contracts)
/// </details>
#[inline]
pub fn do_slice(dim: &mut usize, stride: &mut usize, slice: Slice, fit: Fit) -> Result<isize, ShapeError> {
    let picks = resolve_slice(*dim, slice, fit)?;
    let offset = picks.offset(*stride);
    *dim = picks.count();
    *stride = picks.stride(*stride);
    Ok(offset)
}
