// Made by `rust/erase` of `crates/ndarray_layout/src/strided/collapsing.rt`: edit that.
//! One coordinate of an axis.

use crate::nd_base::{Axis, ErrorKind, Lengths, ShapeError, from_kind};
use crate::nd_slice::do_collapse_axis;
use crate::ndarray_layout::strided::Strided;
use crate::ndarray_layout::strided::places::offset_place;

/// Whether there is an axis, and a coordinate of it at an index.
///
/// <details><summary>Contract (proved)</summary>
///
/// ```text
/// ensures IsTrue result ↔ (collapse_fault shape.now axis.0 index ≡ None)
/// ```
/// [How to read it](crate::contracts)
/// </details>
#[inline]
pub(super) fn has_coordinate(shape: &[usize], axis: Axis, index: usize) -> bool {
    axis.index() < shape.len() && index < shape[axis.index()]
}

impl<D: Lengths> Strided<D> {
    /// Reduces an axis to one of its coordinates: the axis then has length 1, and its stride is
    /// unchanged.
    ///
    /// Coordinate 1 of axis 0 of `[2,3]`, `[3,1]` from 0: `[1,3]`, `[3,1]` from 3. ndarray's
    /// `collapse_axis`.
    ///
    /// # Errors
    ///
    /// `OutOfBounds` where there is no such axis or the index is not less than its length; the view
    /// is unchanged.
    ///
    /// # Examples
    ///
    /// ```
    /// use ndarray_layout::{Axis, CanIndexCheckMode, ErrorKind, Ix2, LayoutError, Strided, from_kind};
    ///
    /// # fn main() -> Result<(), LayoutError> {
    /// let mut view = Strided::new(Ix2(2, 3), Ix2(3, 1), 1, 6, CanIndexCheckMode::ReadOnly)?;
    /// view.collapse(Axis(0), 1)?;
    /// assert_eq!((view.start(), view.dim(), view.strides()), (3, &Ix2(1, 3), &Ix2(3, 1)));
    /// assert_eq!(view.collapse(Axis(0), 1).err(), Some(from_kind(ErrorKind::OutOfBounds)));
    /// # Ok(())
    /// # }
    /// ```
    ///
    /// <details><summary>Contract (proved)</summary>
    ///
    /// ```text
    /// ensures fault: result_err result ≡ collapse_fault self.old.shape axis.0 index
    /// ensures unchanged: OnErr result (self.new ≡ self.old)
    /// ensures collapsed: OnOk result (self.new ≡ collapse_of axis.0 index self.old)
    /// ensures is_view: IsView self.new
    /// ensures kept: OnOk result (Descends (collapse_source axis.0 index) self.old self.new)
    /// ```
    /// [How to read it](crate::contracts)
    /// </details>
    #[inline]
    pub fn collapse(&mut self, axis: Axis, index: usize) -> Result<(), ShapeError> {
        if !has_coordinate(self.dim.slice(), axis, index) {
            return Err(from_kind(ErrorKind::OutOfBounds));
        }
        let offset = do_collapse_axis(&mut self.dim, &self.strides, axis.index(), index);
        self.start = offset_place(self.start, offset);
        Ok(())
    }
}
