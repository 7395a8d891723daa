// Made by `rust/erase` of `crates/ndarray_layout_c/src/lists.rt`: edit that.
//! Lists of numbers as the layer's values: layouts, and views of them.

use crate::ndarray_layout_c::statuses::{BAD_ARGUMENT, OK};
use crate::unwritten::{MaybeUninit, as_unwritten};
use ::ndarray_layout::{
    CanIndexCheckMode, IxDyn, LayoutError, Lengths, StrideShape, Strided, Strides, new_ixdyn, span_of_lengths,
};

/// A shape and its strides, of which every sum fits.
///
/// Errors: those of `span_of_lengths` for elements of one byte; out of memory, never for at most four items.
///
/// <details><summary>Contract (proved)</summary>
///
/// ```text
/// ensures fits: OnOk result (size_fault 1 shape.now (all_signed strides.now) ≡ None)
/// ensures fault: (kind : ErrorKind) → shape_fault result ≡ Some kind →
///     size_fault 1 shape.now (all_signed strides.now) ≡ Some kind
/// ensures memory: NeedsNoMemory None (length shape.now) →
///     NeedsNoMemory None (length strides.now) → shape_fault result ≡ None → IsOk result
/// ensures shape: IfOk result (λ both. lengths both.0 ≡ shape.now)
/// ensures strides: IfOk result (λ both. lengths both.1 ≡ strides.now)
/// ensures valid: OnOk result (IsValidLayout shape.now (all_signed strides.now))
/// ```
/// [How to read it](ndarray_layout::contracts)
/// </details>
pub(crate) fn layout(shape: &[usize], strides: &[usize]) -> Result<(IxDyn, IxDyn), LayoutError> {
    span_of_lengths(1, shape, strides)?;
    Ok((new_ixdyn(shape)?, new_ixdyn(strides)?))
}

/// The view of a layout from the lowest start that it can have.
///
/// Errors: those of `Strided::new`; out of memory, never for at most four items.
///
/// <details><summary>Contract (proved)</summary>
///
/// ```text
/// ensures fits: OnOk result (layout_fault shape.now (all_signed strides.now) ≡ None)
/// ensures fault: (kind : ErrorKind) → shape_fault result ≡ Some kind →
///     layout_fault shape.now (all_signed strides.now) ≡ Some kind
/// ensures memory: NeedsNoMemory None (length shape.now) →
///     NeedsNoMemory None (length strides.now) → shape_fault result ≡ None → IsOk result
/// ensures view: IfOk result (λ v. v ≡ lowest_view shape.now strides.now)
/// ```
/// [How to read it](ndarray_layout::contracts)
/// </details>
pub(crate) fn view(shape: &[usize], strides: &[usize]) -> Result<Strided<IxDyn>, LayoutError> {
    let (dim, strides) = (new_ixdyn(shape)?, new_ixdyn(strides)?);
    Ok(Strided::new(dim, strides, 1, usize::MAX, CanIndexCheckMode::ReadOnly)?)
}

/// The view of a layout from a start.
///
/// Errors: those of `Strided::from_parts`; out of memory, never for at most four items.
///
/// <details><summary>Contract (proved)</summary>
///
/// ```text
/// ensures fits: OnOk result (layout_fault_from start shape.now (all_signed strides.now) ≡ None)
/// ensures fault: (kind : ErrorKind) → shape_fault result ≡ Some kind →
///     layout_fault_from start shape.now (all_signed strides.now) ≡ Some kind
/// ensures memory: NeedsNoMemory None (length shape.now) →
///     NeedsNoMemory None (length strides.now) → shape_fault result ≡ None → IsOk result
/// ensures view: IfOk result (λ v. v ≡ view_of start shape.now strides.now)
/// ```
/// [How to read it](ndarray_layout::contracts)
/// </details>
pub(crate) fn view_from(start: usize, shape: &[usize], strides: &[usize]) -> Result<Strided<IxDyn>, LayoutError> {
    let (dim, strides) = (new_ixdyn(shape)?, new_ixdyn(strides)?);
    Ok(Strided::from_parts(start, dim, strides, 1, usize::MAX, CanIndexCheckMode::ReadOnly)?)
}

/// The view of a shape by its own strides.
///
/// Errors: those of `Strided::from_shape`; out of memory, never for at most four items.
///
/// <details><summary>Contract (proved)</summary>
///
/// ```text
/// ensures fits: OnOk result (own_layout_fault shape.now ≡ None)
/// ensures fault: (kind : ErrorKind) → shape_fault result ≡ Some kind → own_layout_fault shape.now ≡ Some kind
/// ensures memory: NeedsNoMemory None (length shape.now) → shape_fault result ≡ None → IsOk result
/// ensures shape: IfOk result (λ v. v.shape ≡ shape.now)
/// ```
/// [How to read it](ndarray_layout::contracts)
/// </details>
pub(crate) fn own_view(shape: &[usize]) -> Result<Strided<IxDyn>, LayoutError> {
    let dim = new_ixdyn(shape)?;
    let strides = Strides::C;
    Strided::from_shape(StrideShape { dim, strides }, 1, usize::MAX, CanIndexCheckMode::ReadOnly)
}

/// Writes the lengths and the strides of a view, and returns the status.
///
/// <details><summary>Contract (proved)</summary>
///
/// ```text
/// ensures status: result ≡ (if not (length shape.old == length view.now.shape)
///     || not (length strides.old == length view.now.shape) then bad_argument else ok)
/// ensures shape: result ≡ ok → shape.new ≡ view.now.shape
/// ensures strides: result ≡ ok → all_signed strides.new ≡ view.now.strides
/// ensures unchanged: result ≢ ok → (shape.new ≡ shape.old) × (strides.new ≡ strides.old)
/// ```
/// [How to read it](ndarray_layout::contracts)
/// </details>
pub(crate) fn write_axes(
    view: &Strided<IxDyn>,
    shape: &mut [MaybeUninit<usize>],
    strides: &mut [MaybeUninit<usize>],
) -> i32 {
    let (dim, kept) = (view.dim(), view.strides());
    if shape.len() != dim.ndim() || strides.len() != dim.ndim() {
        return BAD_ARGUMENT;
    }
    shape.copy_from_slice(as_unwritten(dim.slice()));
    strides.copy_from_slice(as_unwritten(kept.slice()));
    OK
}
