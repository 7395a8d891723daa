// Made by `rust/erase` of `crates/nd_lent/src/array_view_mut/tiles.rt`: edit that.
//! The chunks of a shape of a part one after another, each a part of its own.

use crate::lent::nd_lent::array_view_mut::ArrayViewMut;
use crate::lent::nd_lent::array_view_mut::parts::Parts;
use crate::ndarray_layout::{BlockViews, LayoutError, Lengths};

/// The chunks of a shape of a part that are still to come, in row-major order of their numbers. ndarray's `ExactChunksIterMut`.
pub type TilesMut<'a, T, D> = Parts<'a, T, BlockViews<D>>;

impl<'a, T: Sized, D: Lengths> ArrayViewMut<'a, T, D> {
    /// An iterator over the chunks of a shape that lie side by side, in row-major order of their numbers, from both ends, each a part of
    /// its own: no two have a place in common, so several may be used at once, and in threads, whatever the strides are. It ends this
    /// part.
    ///
    /// `chunk` is the shape of a chunk, one length for each axis. An axis has `len / chunk` chunks; what is left over at its end is in
    /// none.
    ///
    /// Takes time in proportion to the count of axes. A chunk takes the time of `Parts::try_next`.
    ///
    /// Chunks of `[2]` of `[5]` over 5 6 7 8 9: 5 6, then 7 8. ndarray's `exact_chunks_mut`, with `into_iter`.
    ///
    /// # Errors
    ///
    /// `IncompatibleShape` where `chunk` has more or fewer axes than the part; then `Unsupported` where a length of `chunk` is 0; then
    /// `Overflow` where the product of the counts of chunks and the lengths that are not 0 is greater than `isize::MAX`; then out of
    /// memory, never where the type fixes the count of axes or there are at most 4. The part is gone then.
    ///
    /// # Examples
    ///
    /// ```
    /// use ndarray_layout::{ArrayViewMut, ErrorKind, Ix2, LayoutError, from_kind};
    ///
    /// # fn main() -> Result<(), LayoutError> {
    /// let mut items = [0; 10];
    /// let table = ArrayViewMut::from_shape(Ix2(2, 5), &mut items)?;
    /// for (mut tile, number) in table.into_tiles(&Ix2(2, 2))?.zip(1..) {
    ///     tile.fill(number);
    /// }
    /// assert_eq!(items, [1, 1, 2, 2, 0, 1, 1, 2, 2, 0]);
    /// let table = ArrayViewMut::from_shape(Ix2(2, 5), &mut items)?;
    /// assert_eq!(table.into_tiles(&Ix2(2, 0)).err(), Some(from_kind(ErrorKind::Unsupported).into()));
    /// # Ok(())
    /// # }
    /// ```
    ///
    /// <details><summary>Contract (proved)</summary>
    ///
    /// ```text
    /// ensures fault: shape_fault result ≡ chunks_fault None (array_of self.entry).view.shape (D.list chunk.now)
    /// ensures memory: shape_fault result ≡ None →
    ///     NeedsNoMemory D.NDIM (length (array_of self.entry).view.shape) → IsOk result
    /// ensures tiles: IfOk result (λ left. left.arrays ≡ arrays_of (array_of self.entry).items
    ///     (chunk_views (D.list chunk.now) (array_of self.entry).view))
    /// ensures apart: IfOk result (λ _. AreApart (chunk_views (D.list chunk.now) (array_of self.entry).view))
    /// ensures keeps_access: IfOk result (λ left. left.access ≡ access_of self.entry)
    /// ```
    /// [How to read it](crate::contracts)
    /// </details>
    #[inline]
    pub fn into_tiles(self, chunk: &D) -> Result<TilesMut<'a, T, D>, LayoutError> {
        let ArrayViewMut { cells, view } = self;
        let views = view.into_chunks(chunk)?;
        Ok(Parts { cells, views })
    }
}
