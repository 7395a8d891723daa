// Made by `rust/erase` of `crates/nd_lent/src/views/along_axis.rt`: edit that.
//! The views at the coordinates of an axis, without the axis.

use crate::lent::nd_lent::views::numbered::{ByNumber, Numbered};
use crate::memory::AllocError;
use crate::ndarray_layout::{Axis, ErrorKind, RemoveAxis, ShapeError, Strided, axis_of, from_kind, has_axis};

/// The view at each coordinate of an axis.
pub struct AlongAxis<D: RemoveAxis> {
    pub(crate) view: Strided<D>,
    pub(crate) axis: Axis,
}

impl<D: RemoveAxis> ByNumber for AlongAxis<D> {
    type Dim = D::Smaller;

    #[inline]
    fn view_at(&self, number: usize) -> Result<Strided<D::Smaller>, AllocError> {
        match self.view.index_axis(self.axis, number) {
            Ok(view) => Ok(view),
            // (the axis has the coordinate, so an allocation has failed)
            Err(_) => Err(AllocError),
        }
    }
}

impl<D: RemoveAxis> Numbered<AlongAxis<D>> {
    /// Those of all coordinates of an axis.
    /// Errors: `OutOfBounds` where there is no such axis.
    ///
    /// <details><summary>Contract (proved)</summary>
    ///
    /// ```text
    /// ensures fault: result_err result ≡ invert_fault view.shape axis.0
    /// ensures there: IfOk result (λ _. axis.0 < length view.shape)
    /// ensures views: IfOk result (λ left. left ≡ views_along axis.0 view)
    /// ```
    /// [How to read it](crate::contracts)
    /// </details>
    #[inline]
    pub(crate) fn along(view: Strided<D>, axis: Axis) -> Result<Self, ShapeError> {
        if !has_axis(view.dim().slice(), axis) {
            return Err(from_kind(ErrorKind::OutOfBounds));
        }
        let count = axis_of(view.dim().slice(), axis);
        Ok(Numbered::new(AlongAxis { view, axis }, count))
    }
}
