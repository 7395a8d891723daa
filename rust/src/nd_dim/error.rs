// Made by `rust/erase` of `crates/nd_dim/src/error.rt`: edit that.
//! The error of shapes that are incompatible.

use crate::nd_base::{ErrorKind, Lengths, ShapeError, from_kind};

/// The error of two shapes that are incompatible, whatever they are: `IncompatibleShape`. ndarray's
/// `incompatible_shapes`.
///
/// <details><summary>Contract (proved)</summary>
///
/// ```text
/// ensures result ≡ IncompatibleShape
/// ```
/// [How to read it](crate::contracts)
/// </details>
#[inline]
#[must_use]
pub fn incompatible_shapes<D: Lengths, E: Lengths>(_dim: &D, _other: &E) -> ShapeError {
    from_kind(ErrorKind::IncompatibleShape)
}
