// Made by `rust/erase` of `crates/example_callers/src/reshapes.rt`: edit that.
//! Reads a view along another shape, or learns that no strides would do.

use ::ndarray_layout::memory::AllocError;
use ::ndarray_layout::{LayoutError, Lengths, Order, Strided};

/// The places of a view along another shape, in row-major order, or `None` where no strides keep that list: then the
/// elements have to be copied.
///
/// Errors: out of memory; never where the type fixes the count of axes or there are at most four. Nor does it come where the
/// shape's size doesn't fit, or one of the two shapes alone has no index.
///
/// <details><summary>Contract (proved)</summary>
///
/// ```text
/// ensures shape: IfOk result (λ found. IfSome found (λ same. same.shape ≡ E.list shape.now))
/// ensures kept: IfOk result (λ found. IfSome found (λ same.
///     view_places RowMajor same ≡ view_places RowMajor view.now))
/// ensures none: IfOk result (λ found. IfNone found (ReshapeFits RowMajor (E.list shape.now) view.now → ⊥))
/// ensures memory: NeedsNoMemory E.NDIM (length (E.list shape.now)) → IsOk result
/// ensures asked: OnErr result (MayAskForMemory (E.list shape.now) view.now)
/// ```
/// [How to read it](ndarray_layout::contracts)
/// </details>
pub fn along_shape<D: Lengths, E: Lengths>(view: &Strided<D>, shape: &E) -> Result<Option<Strided<E>>, AllocError> {
    match view.reshape(shape, Order::RowMajor) {
        Ok(same) => Ok(Some(same)),
        Err(LayoutError::Shape(_)) => Ok(None),
        Err(LayoutError::Memory(failed)) => Err(failed),
    }
}
