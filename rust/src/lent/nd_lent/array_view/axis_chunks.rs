// Made by `rust/erase` of `crates/nd_lent/src/array_view/axis_chunks.rt`: edit that.
//! The chunks of an array along an axis one after another, each lent for as long as the data is.

use crate::lent::nd_lent::array_view::ArrayView;
use crate::lent::nd_lent::array_view::arrays::Arrays;
use crate::lent::nd_lent::views::axis_chunks::AxisChunks;
use crate::lent::nd_lent::views::numbered::Numbered;
use crate::ndarray_layout::{Axis, Lengths, ShapeError};

/// The chunks of an array along an axis that are still to come. ndarray's `AxisChunksIter`.
pub type AxisChunksIter<'a, T, D> = Arrays<'a, T, Numbered<AxisChunks<D>>>;

impl<'a, T, D: Lengths> ArrayView<'a, T, D> {
    /// An iterator over chunks of so many coordinates of an axis, from both ends, each lent for as long as the data is; the last one may
    /// have fewer. It ends the array.
    ///
    /// Takes no memory. A chunk takes the time of `split_at`, twice.
    ///
    /// Chunks of 2 of axis 0 of `[3,2]` over 1 2 3 4 5 6: `[2,2]` with 1 2 3 4, and `[1,2]` with 5 6. ndarray's `axis_chunks_iter`.
    ///
    /// # Errors
    ///
    /// `OutOfBounds` where there is no such axis; then `Unsupported` where `size` is 0.
    ///
    /// # Examples
    ///
    /// ```
    /// use ndarray_layout::{ArrayView, Axis, ErrorKind, Ix2, LayoutError};
    ///
    /// # fn main() -> Result<(), LayoutError> {
    /// let table = ArrayView::from_shape(Ix2(3, 2), &[1, 2, 3, 4, 5, 6])?;
    /// let chunks = table.duplicate()?.into_axis_chunks(Axis(0), 2)?;
    /// assert!(chunks.filter_map(|chunk| chunk.as_slice()).eq([&[1, 2, 3, 4][..], &[5, 6]]));
    /// assert_eq!(table.into_axis_chunks(Axis(0), 0).err().map(|error| error.kind()), Some(ErrorKind::Unsupported));
    /// # Ok(())
    /// # }
    /// ```
    ///
    /// <details><summary>Contract (proved)</summary>
    ///
    /// ```text
    /// ensures fault: result_err result ≡ axis_chunks_fault self.entry.view.shape axis.0 size
    /// ensures chunks: IfOk result (λ left. left ≡ chunks_along axis.0 size self.entry)
    /// ```
    /// [How to read it](crate::contracts)
    /// </details>
    #[inline]
    pub fn into_axis_chunks(self, axis: Axis, size: usize) -> Result<AxisChunksIter<'a, T, D>, ShapeError> {
        let ArrayView { reader, view } = self;
        let views = Numbered::chunks(view, axis, size)?;
        Ok(Arrays { reader, views })
    }
}
