// Made by `rust/erase` of `crates/ndarray_layout/src/strided/inverting.rt`: edit that.
//! An axis backwards.

use crate::nd_base::{
    Axis, ErrorKind, Lengths, ShapeError, axis_of, from_kind, has_axis, set_axis_of, signed, unsigned,
};
use crate::ndarray_layout::strided::Strided;
use crate::ndarray_layout::strided::places::place_along_axis;

/// The stride with the other sign; -2^63, which has no opposite, stays.
///
/// <details><summary>Contract (proved)</summary>
///
/// ```text
/// ensures signed_reading result ≡ opposite_stride (signed_reading stride)
/// ```
/// [How to read it](crate::contracts)
/// </details>
#[inline]
fn opposite(stride: usize) -> usize {
    unsigned(signed(stride).wrapping_neg())
}

impl<D: Lengths> Strided<D> {
    /// Reverses an axis: its last coordinate comes first. No element is moved.
    ///
    /// The stride gets the other sign, and the start moves to the last coordinate, if there is one. The stride
    /// -2^63, which only an axis of length 0 or 1 can have, is unchanged: 2^63 is no stride.
    ///
    /// Axis 0 of `[3]`, `[2]` from 1: `[3]`, `[-2]` from 5. ndarray's `invert_axis`.
    ///
    /// # Errors
    ///
    /// `OutOfBounds` where there is no such axis; the view is unchanged.
    ///
    /// # Examples
    ///
    /// ```
    /// use ndarray_layout::{Axis, CanIndexCheckMode, ErrorKind, Ix1, LayoutError, Strided, unsigned};
    ///
    /// # fn main() -> Result<(), LayoutError> {
    /// let mut view = Strided::from_parts(1, Ix1(3), Ix1(2), 1, 6, CanIndexCheckMode::ReadOnly)?;
    /// view.invert_axis(Axis(0))?;
    /// assert_eq!((view.start(), view.dim(), view.strides()), (5, &Ix1(3), &Ix1(unsigned(-2))));
    /// let refused = view.invert_axis(Axis(1)).map_err(|error| error.kind());
    /// assert_eq!(refused, Err(ErrorKind::OutOfBounds));
    /// # Ok(())
    /// # }
    /// ```
    ///
    /// <details><summary>Contract (proved)</summary>
    ///
    /// ```text
    /// ensures fault: result_err result ≡ invert_fault self.old.shape axis.0
    /// ensures unchanged: OnErr result (self.new ≡ self.old)
    /// ensures inverted: OnOk result (self.new ≡ inverted_of axis.0 self.old)
    /// ensures is_view: IsView self.new
    /// ensures kept: OnOk result (Descends (invert_source axis.0 self.old.shape) self.old self.new)
    /// ```
    /// [How to read it](crate::contracts)
    /// </details>
    #[inline]
    pub fn invert_axis(&mut self, axis: Axis) -> Result<(), ShapeError> {
        if !has_axis(self.dim.slice(), axis) {
            return Err(from_kind(ErrorKind::OutOfBounds));
        }
        let len = axis_of(self.dim.slice(), axis);
        let stride = axis_of(self.strides.slice(), axis);
        set_axis_of(self.strides.slice_mut(), axis, opposite(stride));
        self.start = place_along_axis(self.start, len.saturating_sub(1), stride);
        Ok(())
    }
}
