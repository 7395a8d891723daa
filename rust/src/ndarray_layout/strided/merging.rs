// Made by `rust/erase` of `crates/ndarray_layout/src/strided/merging.rt`: edit that.
//! One axis merged into another.

use crate::nd_base::{Axis, ErrorKind, Lengths, ShapeError, from_kind};
use crate::nd_shape::merge_axes;
use crate::ndarray_layout::strided::Strided;

/// Checks that a shape has two axes, and that they are not one. Errors: `OutOfBounds` where it
/// lacks one of them, then `Unsupported` for one axis twice.
///
/// <details><summary>Contract (proved)</summary>
///
/// ```text
/// ensures result_err result ≡ axes_fault shape.now take.0 into.0
/// ```
/// [How to read it](crate::contracts)
/// </details>
#[inline(always)]
fn check_axes(shape: &[usize], take: Axis, into: Axis) -> Result<(), ShapeError> {
    if take.index() >= shape.len() || into.index() >= shape.len() {
        return Err(from_kind(ErrorKind::OutOfBounds));
    }
    if take.index() == into.index() {
        return Err(from_kind(ErrorKind::Unsupported));
    }
    Ok(())
}

impl<D: Lengths> Strided<D> {
    /// Merges the axis `take` into the axis `into` where one stride serves for the coordinates of
    /// both, and returns whether it did; after `Ok(false)` the view is unchanged.
    ///
    /// Then the axis `into` has the coordinates of both, that of `take` moving slowest among them,
    /// and `take` has length 1, or 0 where there is no index.
    ///
    /// Axis 0 into axis 1 of `[2,3]` with strides `[3,1]`: `[1,6]` with `[3,1]`. ndarray's
    /// `merge_axes`.
    ///
    /// # Errors
    ///
    /// `OutOfBounds` where there is no such axis, then `Unsupported` for one axis twice; the view
    /// is unchanged.
    ///
    /// # Examples
    ///
    /// ```
    /// use ndarray_layout::{Axis, CanIndexCheckMode, Ix2, LayoutError, Strided};
    ///
    /// # fn main() -> Result<(), LayoutError> {
    /// let mut view = Strided::new(Ix2(2, 3), Ix2(3, 1), 1, 6, CanIndexCheckMode::ReadOnly)?;
    /// assert!(view.merge(Axis(0), Axis(1))?);
    /// assert_eq!((view.dim(), view.strides()), (&Ix2(1, 6), &Ix2(3, 1)));
    /// let mut padded = Strided::new(Ix2(2, 3), Ix2(4, 1), 1, 8, CanIndexCheckMode::ReadOnly)?;
    /// assert!(!padded.merge(Axis(0), Axis(1))?);
    /// assert_eq!((padded.dim(), padded.strides()), (&Ix2(2, 3), &Ix2(4, 1)));
    /// # Ok(())
    /// # }
    /// ```
    ///
    /// <details><summary>Contract (proved)</summary>
    ///
    /// ```text
    /// ensures fault: result_err result ≡ axes_fault self.old.shape take.0 into.0
    /// ensures unchanged: OnErr result (self.new ≡ self.old)
    /// ensures fits: IfOk result (λ merged. IsTrue merged ↔ HasMergedStride take.0 into.0 self.old)
    /// ensures merged: IfOk result (λ merged.
    ///     self.new ≡ (if merged then merge_of take.0 into.0 self.old else self.old))
    /// ensures is_view: IsView self.new
    /// ensures kept: IfOk result (λ merged. IsTrue merged →
    ///     Descends (merge_source take.0 into.0 self.old.shape) self.old self.new)
    /// ```
    /// [How to read it](crate::contracts)
    /// </details>
    #[inline]
    pub fn merge(&mut self, take: Axis, into: Axis) -> Result<bool, ShapeError> {
        check_axes(self.dim.slice(), take, into)?;
        Ok(merge_axes(&mut self.dim, &mut self.strides, take, into))
    }
}
