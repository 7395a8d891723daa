// Made by `rust/erase` of `crates/example_callers/src/foreign.rt`: edit that.
//! Takes a layout from foreign code, whose strides are counted in bytes as those of NumPy and of C are.

use ::ndarray_layout::{CanIndexCheckMode, ErrorKind, Lengths, ShapeError, Strided, from_kind, signed, unsigned};

/// The stride in elements of `elem_size` bytes for a stride in bytes; `None` where it is no multiple.
///
/// <details><summary>Contract (proved)</summary>
///
/// ```text
/// requires some: 0 < elem_size
/// requires fits: elem_size ≤ limit
/// ensures some: IfSome result (λ stride. signed_reading stride *ℤ pos elem_size ≡ signed_reading byte_stride)
/// ensures none: IfNone result ((stride : ℤ) → stride *ℤ pos elem_size ≡ signed_reading byte_stride → ⊥)
/// ```
/// [How to read it](ndarray_layout::contracts)
/// </details>
fn in_elements(byte_stride: usize, elem_size: usize) -> Option<usize> {
    let (byte_stride, elem_size) = (signed(byte_stride), elem_size as isize);
    if byte_stride % elem_size != 0 {
        return None;
    }
    Some(unsigned(byte_stride / elem_size))
}

/// Replaces strides in bytes by strides in elements of `elem_size` bytes. Returns whether each is a multiple.
///
/// <details><summary>Contract (proved)</summary>
///
/// ```text
/// requires some: 0 < elem_size
/// requires fits: elem_size ≤ limit
/// ensures divided: IsTrue result →
///     map (λ stride. stride *ℤ pos elem_size) (all_signed strides.new) ≡ all_signed strides.old
/// ensures remainder: IsFalse result → (given : List ℤ) →
///     map (λ stride. stride *ℤ pos elem_size) given ≡ all_signed strides.old → ⊥
/// ```
/// [How to read it](ndarray_layout::contracts)
/// </details>
fn divide(strides: &mut [usize], elem_size: usize) -> bool {
    for stride in strides.iter_mut() {
        let Some(found) = in_elements(*stride, elem_size) else {
            return false;
        };
        *stride = found;
    }
    true
}

/// The view of a layout whose strides are counted in bytes, over `len` elements of `elem_size` bytes. The first index
/// lies at the element `start`.
///
/// Errors: `IncompatibleLayout` where a stride is no multiple of `elem_size`; then those of `Strided::from_parts`.
///
/// # Conditions
///
/// The caller ensures that an element has a byte, and at most `isize::MAX`. Otherwise this call or a later one panics
/// or returns unspecified values.
///
/// <details><summary>Contract (proved)</summary>
///
/// ```text
/// requires some: 0 < elem_size
/// requires fits: elem_size ≤ limit
/// ensures fault: (strides : List ℤ) →
///     map (λ stride. stride *ℤ pos elem_size) strides ≡ all_signed (D.list byte_strides) →
///     result_err result ≡ acceptance_from start elem_size len mode (D.list dim) strides
/// ensures remainder: ((strides : List ℤ) →
///     map (λ stride. stride *ℤ pos elem_size) strides ≡ all_signed (D.list byte_strides) → ⊥) →
///     result_err result ≡ Some IncompatibleLayout
/// ensures start: IfOk result (λ view. view.start ≡ start)
/// ensures shape: IfOk result (λ view. view.shape ≡ D.list dim)
/// ensures strides: IfOk result (λ view.
///     map (λ stride. stride *ℤ pos elem_size) view.strides ≡ all_signed (D.list byte_strides))
/// ensures in_bounds: IfOk result (λ view. LiesWithin len view)
/// ensures distinct: IfOk result (λ view. mode ≡ OwnedMutable → HasDistinctPlaces view)
/// ```
/// [How to read it](ndarray_layout::contracts)
/// </details>
pub fn from_bytes<D: Lengths>(
    start: usize,
    dim: D,
    byte_strides: D,
    elem_size: usize,
    len: usize,
    mode: CanIndexCheckMode,
) -> Result<Strided<D>, ShapeError> {
    let mut strides = byte_strides;
    if !divide(strides.slice_mut(), elem_size) {
        return Err(from_kind(ErrorKind::IncompatibleLayout));
    }
    Strided::from_parts(start, dim, strides, elem_size, len, mode)
}
