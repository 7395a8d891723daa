// Made by `rust/erase` of `crates/ndarray_layout/src/strided/indexing.rt`: edit that.
//! One coordinate of an axis, without the axis.

use crate::nd_base::{Axis, ErrorKind, LayoutError, axis_of, from_kind};
use crate::nd_dim::RemoveAxis;
use crate::ndarray_layout::strided::Strided;
use crate::ndarray_layout::strided::collapsing::has_coordinate;
use crate::ndarray_layout::strided::places::place_along_axis;

impl<D: RemoveAxis> Strided<D> {
    /// The view at one coordinate of an axis, without the axis. No element is moved.
    ///
    /// Takes time in proportion to the count of axes.
    ///
    /// Coordinate 1 of axis 0 of `[2,3]`, `[3,1]` from 0: `[3]`, `[1]` from 3. ndarray's `index_axis`.
    ///
    /// # Errors
    ///
    /// `OutOfBounds` where there is no such axis or the index is not less than its length; then out of
    /// memory, never where the type fixes the count of axes or at most 4 are left.
    ///
    /// # Examples
    ///
    /// ```
    /// use ndarray_layout::{Axis, CanIndexCheckMode, ErrorKind, Ix1, Ix2, LayoutError, Strided, from_kind};
    ///
    /// # fn main() -> Result<(), LayoutError> {
    /// let view = Strided::new(Ix2(2, 3), Ix2(3, 1), 1, 6, CanIndexCheckMode::ReadOnly)?;
    /// let row = view.index_axis(Axis(0), 1)?;
    /// assert_eq!((row.start(), row.dim(), row.strides()), (3, &Ix1(3), &Ix1(1)));
    /// let refused = view.index_axis(Axis(0), 2);
    /// assert_eq!(refused.err(), Some(from_kind(ErrorKind::OutOfBounds).into()));
    /// # Ok(())
    /// # }
    /// ```
    ///
    /// <details><summary>Contract (proved)</summary>
    ///
    /// ```text
    /// ensures fault: shape_fault result ≡ collapse_fault self.now.shape axis.0 index
    /// ensures memory: shape_fault result ≡ None →
    ///     NeedsNoMemory D.Smaller.NDIM (length self.now.shape - 1) → IsOk result
    /// ensures indexed: IfOk result (λ v. v ≡ indexed_of axis.0 index self.now)
    /// ensures kept: IfOk result (Descends (index_source axis.0 index) self.now)
    /// ```
    /// [How to read it](crate::contracts)
    /// </details>
    #[inline]
    pub fn index_axis(&self, axis: Axis, index: usize) -> Result<Strided<D::Smaller>, LayoutError> {
        if !has_coordinate(self.dim.slice(), axis, index) {
            return Err(LayoutError::Shape(from_kind(ErrorKind::OutOfBounds)));
        }
        let dim = self.dim.remove_axis(axis)?;
        let strides = self.strides.remove_axis(axis)?;
        let stride = axis_of(self.strides.slice(), axis);
        let start = place_along_axis(self.start, index, stride);
        Ok(Strided { start, dim, strides })
    }
}
