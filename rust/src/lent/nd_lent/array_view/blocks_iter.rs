// Made by `rust/erase` of `crates/nd_lent/src/array_view/blocks_iter.rt`: edit that.
//! The windows or the chunks of an array one after another, each lent for as long as the data is.

use crate::lent::nd_lent::array_view::ArrayView;
use crate::lent::nd_lent::array_view::arrays::Arrays;
use crate::memory::prelude::Vec;
use crate::ndarray_layout::{BlockViews, LayoutError, Lengths};

/// The blocks of a shape that are still to come, in row-major order: the windows of an array, or its chunks. ndarray's `Windows` and
/// `ExactChunksIter`.
pub type BlocksIter<'a, T, D> = Arrays<'a, T, BlockViews<D>>;

impl<'a, T, D: Lengths> ArrayView<'a, T, D> {
    /// An iterator over the chunks of a shape that lie side by side, in row-major order of their numbers, from both ends, each lent for
    /// as long as the data is. It ends the array.
    ///
    /// `chunk` is the shape of a chunk, one length for each axis. An axis has `len / chunk` chunks; what is left over at its end is
    /// left out.
    ///
    /// Takes time in proportion to the count of axes. A chunk takes the time of `BlocksIter::try_next`.
    ///
    /// Chunks of `[2]` of `[5]` over 5 6 7 8 9: 5 6, then 7 8. ndarray's `exact_chunks`, with `into_iter`.
    ///
    /// # Errors
    ///
    /// `IncompatibleShape` where `chunk` has more or fewer axes than the array; then `Unsupported` where a length of `chunk` is 0; then
    /// `Overflow` where the product of the counts of chunks and the lengths that are not 0 is greater than `isize::MAX`; then out of
    /// memory, never where the type fixes the count of axes or there are at most 4.
    ///
    /// # Examples
    ///
    /// ```
    /// use ndarray_layout::{ArrayView, ErrorKind, Ix2, LayoutError, from_kind};
    ///
    /// # fn main() -> Result<(), LayoutError> {
    /// let table = ArrayView::from_shape(Ix2(2, 5), &[0, 1, 2, 3, 4, 5, 6, 7, 8, 9])?;
    /// let chunks = table.duplicate()?.into_exact_chunks(&Ix2(2, 2))?;
    /// let sums: Vec<i32> = chunks.map(|chunk| chunk.into_iter().sum()).collect();
    /// assert_eq!(sums, [12, 20]);
    /// let refused = table.into_exact_chunks(&Ix2(2, 0));
    /// assert_eq!(refused.err(), Some(from_kind(ErrorKind::Unsupported).into()));
    /// # Ok(())
    /// # }
    /// ```
    ///
    /// <details><summary>Contract (proved)</summary>
    ///
    /// ```text
    /// ensures fault: shape_fault result ≡ chunks_fault None self.entry.view.shape (D.list chunk.now)
    /// ensures memory: shape_fault result ≡ None → NeedsNoMemory D.NDIM (length self.entry.view.shape) → IsOk result
    /// ensures chunks: IfOk result (λ left. left ≡
    ///     arrays_of self.entry.items (chunk_views (D.list chunk.now) self.entry.view))
    /// ```
    /// [How to read it](crate::contracts)
    /// </details>
    #[inline]
    pub fn into_exact_chunks(self, chunk: &D) -> Result<BlocksIter<'a, T, D>, LayoutError> {
        let ArrayView { reader, view } = self;
        let views = view.into_chunks(chunk)?;
        Ok(Arrays { reader, views })
    }

    /// An iterator over all windows of a shape, in row-major order of their first indices, from both ends, each lent for as long as the
    /// data is. It ends the array.
    ///
    /// `window` is the shape of a window, one length for each axis. An axis has `len - window + 1` windows, and none where the window is
    /// longer.
    ///
    /// Takes time in proportion to the count of axes. A window takes the time of `BlocksIter::try_next`.
    ///
    /// Windows of `[2]` of `[3]` over 7 8 9: 7 8, then 8 9. ndarray's `windows`, with `into_iter`.
    ///
    /// # Errors
    ///
    /// `IncompatibleShape` where `window` has more or fewer axes than the array; then `Unsupported` where a length of `window` is 0;
    /// then `Overflow` where the product of the counts of windows and the lengths that are not 0 is greater than `isize::MAX`; then out
    /// of memory, never where the type fixes the count of axes or there are at most 4.
    ///
    /// # Examples
    ///
    /// ```
    /// use ndarray_layout::{ArrayView, ErrorKind, Ix1, LayoutError, from_kind};
    ///
    /// # fn main() -> Result<(), LayoutError> {
    /// let row = ArrayView::from_shape(Ix1(3), &[7, 8, 9])?;
    /// let windows = row.duplicate()?.into_windows(&Ix1(2))?;
    /// assert_eq!(windows.map(|window| (window[0], window[1])).collect::<Vec<_>>(), [(7, 8), (8, 9)]);
    /// assert_eq!(row.into_windows(&Ix1(0)).err(), Some(from_kind(ErrorKind::Unsupported).into()));
    /// # Ok(())
    /// # }
    /// ```
    ///
    /// <details><summary>Contract (proved)</summary>
    ///
    /// ```text
    /// ensures fault: shape_fault result ≡ windows_fault None self.entry.view.shape (D.list window.now)
    /// ensures memory: shape_fault result ≡ None → NeedsNoMemory D.NDIM (length self.entry.view.shape) → IsOk result
    /// ensures windows: IfOk result (λ left. left ≡
    ///     arrays_of self.entry.items (window_views (D.list window.now) self.entry.view))
    /// ```
    /// [How to read it](crate::contracts)
    /// </details>
    #[inline]
    pub fn into_windows(self, window: &D) -> Result<BlocksIter<'a, T, D>, LayoutError> {
        let ArrayView { reader, view } = self;
        let views = view.into_windows(window)?;
        Ok(Arrays { reader, views })
    }
}
