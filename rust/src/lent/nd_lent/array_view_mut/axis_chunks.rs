// Made by `rust/erase` of `crates/nd_lent/src/array_view_mut/axis_chunks.rt`: edit that.
//! The chunks of a part along an axis one after another, each a part of its own.

use crate::lent::nd_lent::array_view_mut::ArrayViewMut;
use crate::lent::nd_lent::array_view_mut::parts::Parts;
use crate::lent::nd_lent::views::axis_chunks::AxisChunks;
use crate::lent::nd_lent::views::numbered::Numbered;
use crate::memory::prelude::Vec;
use crate::ndarray_layout::{Axis, Lengths, ShapeError};

/// The chunks of a part along an axis that are still to come. ndarray's `AxisChunksIterMut`.
pub type AxisChunksIterMut<'a, T, D> = Parts<'a, T, Numbered<AxisChunks<D>>>;

impl<'a, T: Sized, D: Lengths> ArrayViewMut<'a, T, D> {
    /// An iterator over chunks of so many coordinates of an axis, from both ends, each a part of its own; the last one may have fewer.
    /// Several may be used at once, and in threads, whatever the strides are. It ends this part.
    ///
    /// Takes no memory. A chunk takes the time of `split_at`, twice.
    ///
    /// Chunks of 2 of axis 0 of `[3,2]` over 1 2 3 4 5 6: `[2,2]` with 1 2 3 4, and `[1,2]` with 5 6. ndarray's
    /// `axis_chunks_iter_mut`.
    ///
    /// # Errors
    ///
    /// `OutOfBounds` where there is no such axis; then `Unsupported` where `size` is 0. The part is gone then.
    ///
    /// # Examples
    ///
    /// ```
    /// use ndarray_layout::{ArrayViewMut, Axis, Ix2, LayoutError};
    ///
    /// # fn main() -> Result<(), LayoutError> {
    /// let mut items = [1, 2, 3, 4, 5, 6];
    /// let part = ArrayViewMut::from_shape(Ix2(2, 3), &mut items)?;
    /// let chunks: Vec<_> = part.into_chunk_parts(Axis(1), 2)?.collect();
    /// let [mut first, last] = chunks.try_into().expect("two chunks");
    /// first.fill(last[(1, 0)]);
    /// assert_eq!(items, [6, 6, 3, 6, 6, 6]);
    /// # Ok(())
    /// # }
    /// ```
    ///
    /// <details><summary>Contract (proved)</summary>
    ///
    /// ```text
    /// ensures fault: result_err result ≡ axis_chunks_fault (array_of self.entry).view.shape axis.0 size
    /// ensures chunks: IfOk result (λ left. left.arrays ≡ chunks_along axis.0 size (array_of self.entry))
    /// ensures keeps_access: IfOk result (λ left. left.access ≡ access_of self.entry)
    /// ```
    /// [How to read it](crate::contracts)
    /// </details>
    #[inline]
    pub fn into_chunk_parts(self, axis: Axis, size: usize) -> Result<AxisChunksIterMut<'a, T, D>, ShapeError> {
        let ArrayViewMut { cells, view } = self;
        let views = Numbered::chunks(view, axis, size)?;
        Ok(Parts { cells, views })
    }
}
