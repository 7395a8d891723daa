// Made by `rust/erase` of `crates/ndarray_layout/src/strided/inserting.rt`: edit that.
//! A new axis.

use crate::nd_base::{Axis, ErrorKind, LayoutError, from_kind};
use crate::nd_dim::Dimension;
use crate::ndarray_layout::strided::Strided;

impl<D: Dimension> Strided<D> {
    /// The view with a new axis before the axis of this number, or after all of them. The new axis has length
    /// 1 and the stride 1. No element is moved.
    ///
    /// Takes time in proportion to the count of axes.
    ///
    /// Axis 1 of `[2,3]`, `[3,1]`: `[2,1,3]`, `[3,1,1]`. ndarray's `insert_axis`.
    ///
    /// # Errors
    ///
    /// `OutOfBounds` where the number is greater than the count of axes; then out of memory, never where the
    /// type of the result fixes the count of axes (that of `Ix6` doesn't) or there are at most 3.
    ///
    /// # Examples
    ///
    /// ```
    /// use ndarray_layout::{Axis, CanIndexCheckMode, ErrorKind, Ix2, Ix3, LayoutError, Strided, from_kind};
    ///
    /// # fn main() -> Result<(), LayoutError> {
    /// let view = Strided::new(Ix2(2, 3), Ix2(3, 1), 1, 6, CanIndexCheckMode::ReadOnly)?;
    /// let larger = view.insert_axis(Axis(1))?;
    /// assert_eq!(larger.dim(), &Ix3(2, 1, 3));
    /// assert_eq!(larger.strides(), &Ix3(3, 1, 1));
    /// let refused = view.insert_axis(Axis(3));
    /// assert_eq!(refused.err(), Some(from_kind(ErrorKind::OutOfBounds).into()));
    /// # Ok(())
    /// # }
    /// ```
    ///
    /// <details><summary>Contract (proved)</summary>
    ///
    /// ```text
    /// ensures fault: shape_fault result ≡ insert_fault self.now.shape axis.0
    /// ensures memory: shape_fault result ≡ None →
    ///     NeedsNoMemory D.Larger.NDIM (length self.now.shape + 1) → IsOk result
    /// ensures inserted: IfOk result (λ v. v ≡ inserted_of axis.0 self.now)
    /// ensures kept: IfOk result (Descends (insert_source axis.0) self.now)
    /// ```
    /// [How to read it](crate::contracts)
    /// </details>
    #[inline]
    pub fn insert_axis(&self, axis: Axis) -> Result<Strided<D::Larger>, LayoutError> {
        if axis.index() > self.dim.ndim() {
            return Err(LayoutError::Shape(from_kind(ErrorKind::OutOfBounds)));
        }
        let dim = self.dim.insert_axis(axis)?;
        let strides = self.strides.insert_axis(axis)?;
        Ok(Strided { start: self.start, dim, strides })
    }
}
