// Made by `rust/erase` of `crates/nd_lent/src/views/axis_chunks.rt`: edit that.
//! The chunks of an axis: views of `size` coordinates of it, fewer in the last one.

use crate::lent::nd_lent::views::numbered::{ByNumber, Numbered};
use crate::memory::AllocError;
use crate::ndarray_layout::{Axis, ErrorKind, LayoutError, Lengths, ShapeError, Strided, axis_of, from_kind, has_axis};

/// The view of each chunk along an axis.
pub struct AxisChunks<D: Lengths> {
    pub(crate) view: Strided<D>,
    pub(crate) axis: Axis,
    // How many coordinates a chunk has; the last one may have fewer.
    pub(crate) size: usize,
}

/// The view of one chunk, by its number: `size` coordinates of an axis, fewer in the last one. Errors: out of memory.
///
/// # Conditions
///
/// The caller ensures that it exists. Otherwise this call or a later one panics or returns unspecified values.
///
/// <details><summary>Contract (proved)</summary>
///
/// ```text
/// requires axis: axis.0 < length view.now.shape
/// requires some: number * size < slice_index view.now.shape axis.0
/// ensures fault: shape_fault result ≡ None
/// ensures memory: NeedsNoMemory D.NDIM (length view.now.shape) → IsOk result
/// ensures chunk: IfOk result (λ chunk. chunk ≡ chunk_view axis.0 size number view.now)
/// ```
/// [How to read it](crate::contracts)
/// </details>
#[inline]
fn view_of_chunk<D: Lengths>(
    view: &Strided<D>,
    axis: Axis,
    size: usize,
    number: usize,
) -> Result<Strided<D>, LayoutError> {
    let len = axis_of(view.dim().slice(), axis);
    let start = number * size;
    let count = size.min(len - start);
    let (_, rest) = view.duplicate()?.split_at(axis, start)?;
    let (chunk, _) = rest.split_at(axis, count)?;
    Ok(chunk)
}

impl<D: Lengths> ByNumber for AxisChunks<D> {
    type Dim = D;

    #[inline]
    fn view_at(&self, number: usize) -> Result<Strided<D>, AllocError> {
        match view_of_chunk(&self.view, self.axis, self.size, number) {
            Ok(view) => Ok(view),
            // (the axis has the coordinates, so an allocation has failed)
            Err(_) => Err(AllocError),
        }
    }
}

impl<D: Lengths> Numbered<AxisChunks<D>> {
    /// The views of all chunks of an axis, of `size` coordinates each.
    /// Errors: `OutOfBounds` where there is no such axis; then `Unsupported` where `size` is 0.
    ///
    /// <details><summary>Contract (proved)</summary>
    ///
    /// ```text
    /// ensures fault: result_err result ≡ axis_chunks_fault view.shape axis.0 size
    /// ensures there: IfOk result (λ _. HasChunks view.shape axis.0 size)
    /// ensures views: IfOk result (λ left. left ≡ chunk_views_along axis.0 size view)
    /// ```
    /// [How to read it](crate::contracts)
    /// </details>
    #[inline]
    pub(crate) fn chunks(view: Strided<D>, axis: Axis, size: usize) -> Result<Self, ShapeError> {
        if !has_axis(view.dim().slice(), axis) {
            return Err(from_kind(ErrorKind::OutOfBounds));
        }
        if size == 0 {
            return Err(from_kind(ErrorKind::Unsupported));
        }
        let count = axis_of(view.dim().slice(), axis).div_ceil(size);
        Ok(Numbered::new(AxisChunks { view, axis, size }, count))
    }
}
