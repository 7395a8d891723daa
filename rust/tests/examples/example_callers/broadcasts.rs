// Made by `rust/erase` of `crates/example_callers/src/broadcasts.rt`: edit that.
//! Reads two views as views of the shape that both have in common.

use ::ndarray_layout::{LayoutError, Lengths, Strided, co_broadcast};

/// Two views as views of the shape that NumPy's rule gives them in common.
///
/// Errors: `IncompatibleShape` where they have no shape in common. Then out of memory for the common shape, never where the
/// type fixes the count or there are at most four axes. Then `Overflow` where the product of its lengths that are not 0 is
/// greater than `isize::MAX`. Then out of memory for the views, never at such types or counts.
///
/// # Conditions
///
/// The caller ensures that the type allows the greater of their counts of axes: any type that fixes a count does, and
/// `IxDyn`. Otherwise this call or a later one panics or returns unspecified values.
///
/// <details><summary>Contract (proved)</summary>
///
/// ```text
/// requires IsCount D.NDIM (max (length one.now.shape) (length other.now.shape))
/// ensures fault: NeedsNoMemory D.NDIM (max (length one.now.shape) (length other.now.shape)) →
///     shape_fault result ≡ option_map_or
///     (λ common. broadcast_fault common one.now.shape)
///     (common_shape one.now.shape other.now.shape)
///     (Some IncompatibleShape)
/// ensures failed: (kind : ErrorKind) → shape_fault result ≡ Some kind → option_map_or
///     (λ common. broadcast_fault common one.now.shape)
///     (common_shape one.now.shape other.now.shape)
///     (Some IncompatibleShape) ≡ Some kind
/// ensures none: common_shape one.now.shape other.now.shape ≡ None → shape_fault result ≡ Some IncompatibleShape
/// ensures memory: NeedsNoMemory D.NDIM (max (length one.now.shape) (length other.now.shape)) →
///     shape_fault result ≡ None → IsOk result
/// ensures common: IfOk result (λ both. common_shape one.now.shape other.now.shape ≡ Some both.0.shape)
/// ensures one: IfOk result (λ both. both.0 ≡ broadcast_of both.0.shape one.now)
/// ensures other: IfOk result (λ both. both.1 ≡ broadcast_of both.0.shape other.now)
/// ensures in_bounds: IfOk result (λ both. (len : ℕ) → LiesWithin len one.now → LiesWithin len both.0)
/// ensures in_bounds_other: IfOk result (λ both. (len : ℕ) → LiesWithin len other.now → LiesWithin len both.1)
/// ```
/// [How to read it](ndarray_layout::contracts)
/// </details>
pub fn on_common_shape<D: Lengths>(
    one: &Strided<D>,
    other: &Strided<D>,
) -> Result<(Strided<D>, Strided<D>), LayoutError> {
    let shape: D = co_broadcast(one.dim(), other.dim())?;
    Ok((one.broadcast(&shape)?, other.broadcast(&shape)?))
}
