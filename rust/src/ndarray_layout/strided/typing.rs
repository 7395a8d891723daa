// Made by `rust/erase` of `crates/ndarray_layout/src/strided/typing.rt`: edit that.
//! Views of another type for as many axes.

use crate::memory::AllocError;
use crate::nd_base::{ErrorKind, LayoutError, Lengths, from_kind};
use crate::ndarray_layout::strided::Strided;
use crate::ndarray_layout::strided::slicing::allows;

/// The same lengths, or strides, at a type for as many.
///
/// Errors: out of memory; never where the type fixes the count or there are at most 4.
///
/// <details><summary>Contract (proved)</summary>
///
/// ```text
/// requires IsCount E.NDIM (length lens.now)
/// ensures list: IfOk result (λ d. E.list d ≡ lens.now)
/// ensures memory: NeedsNoMemory E.NDIM (length lens.now) → IsOk result
/// ```
/// [How to read it](crate::contracts)
/// </details>
#[inline(always)]
fn typed<E: Lengths>(lens: &[usize]) -> Result<E, AllocError> {
    let mut typed = E::zeros(lens.len())?;
    typed.slice_mut().copy_from_slice(lens);
    Ok(typed)
}

impl<D: Lengths> Strided<D> {
    /// The same view, of another type for as many axes.
    ///
    /// Takes time in proportion to the count of axes.
    ///
    /// `[2,3]` with strides `[3,1]` at `IxDyn` becomes the same at `Ix2`. ndarray's `into_dimensionality`.
    ///
    /// # Errors
    ///
    /// `IncompatibleShape` where the type `E` fixes another count of axes; then out of memory, never where it fixes the
    /// count or there are at most 4.
    ///
    /// # Examples
    ///
    /// ```
    /// use ndarray_layout::{CanIndexCheckMode, Ix2, Ix3, IxDyn, LayoutError, Strided};
    ///
    /// # fn main() -> Result<(), LayoutError> {
    /// let view = Strided::new(IxDyn(&[2, 3]), IxDyn(&[3, 1]), 1, 6, CanIndexCheckMode::ReadOnly)?;
    /// assert!(view.clone().into_dimensionality::<Ix3>().is_err());
    /// assert_eq!(view.into_dimensionality::<Ix2>()?.place(&(1, 2)), Some(5));
    /// # Ok(())
    /// # }
    /// ```
    ///
    /// <details><summary>Contract (proved)</summary>
    ///
    /// ```text
    /// ensures fault: shape_fault result ≡ count_fault E.NDIM (length self.shape)
    /// ensures memory: count_fault E.NDIM (length self.shape) ≡ None →
    ///     NeedsNoMemory E.NDIM (length self.shape) → IsOk result
    /// ensures view: IfOk result (λ v. v ≡ self)
    /// ```
    /// [How to read it](crate::contracts)
    /// </details>
    #[inline]
    pub fn into_dimensionality<E: Lengths>(self) -> Result<Strided<E>, LayoutError> {
        if !allows(E::NDIM, self.dim.ndim()) {
            return Err(LayoutError::Shape(from_kind(ErrorKind::IncompatibleShape)));
        }
        let dim = typed(self.dim.slice())?;
        let strides = typed(self.strides.slice())?;
        Ok(Strided { start: self.start, dim, strides })
    }
}
