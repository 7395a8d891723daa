// Made by `rust/erase` of `crates/ndarray_layout/src/strided/block_views.rt`: edit that.
//! The views of the blocks of a shape one after another: its windows, or the chunks that lie side by side.

use crate::memory::AllocError;
use crate::nd_base::{LayoutError, Lengths, Order};
use crate::ndarray_layout::strided::Strided;
use crate::ndarray_layout::strided::into_places::IntoPlaces;

/// The views of the windows or the chunks that are still to come, in row-major order, from both ends. The layout of
/// ndarray's `Windows` and `ExactChunksIter`.
pub struct BlockViews<D: Lengths> {
    // The view that has the blocks, and their shape.
    view: Strided<D>,
    block: D,
    // The places of the first indices of those that are left.
    starts: IntoPlaces<D>,
}

impl<D: Lengths> BlockViews<D> {
    /// How many are left.
    ///
    /// Of the windows of `[2]` of `[4]`: 3. ndarray's `len`.
    ///
    /// # Examples
    ///
    /// ```
    /// use ndarray_layout::{CanIndexCheckMode, Ix1, LayoutError, Strided};
    ///
    /// # fn main() -> Result<(), LayoutError> {
    /// let view = Strided::new(Ix1(4), Ix1(1), 1, 4, CanIndexCheckMode::ReadOnly)?;
    /// assert_eq!(view.into_windows(&Ix1(2))?.len(), 3);
    /// # Ok(())
    /// # }
    /// ```
    ///
    /// <details><summary>Contract (proved)</summary>
    ///
    /// ```text
    /// ensures result ≡ length self.now
    /// ```
    /// [How to read it](crate::contracts)
    /// </details>
    #[must_use]
    #[inline]
    pub fn len(&self) -> usize {
        self.starts.len()
    }

    /// Skips the next `count`, or all that remain.
    ///
    /// Takes no memory, and no time for each of them.
    ///
    /// Of the windows of `[2]` of `[4]`, after 2 of them: the last one. What `nth` of std's iterators skips one by one.
    ///
    /// # Examples
    ///
    /// ```
    /// use ndarray_layout::{CanIndexCheckMode, Ix1, LayoutError, Strided};
    ///
    /// # fn main() -> Result<(), LayoutError> {
    /// let view = Strided::new(Ix1(4), Ix1(1), 1, 4, CanIndexCheckMode::ReadOnly)?;
    /// let mut windows = view.into_windows(&Ix1(2))?;
    /// windows.advance(2);
    /// assert_eq!(windows.try_next()?.map(|window| window.start()), Some(2));
    /// # Ok(())
    /// # }
    /// ```
    ///
    /// <details><summary>Contract (proved)</summary>
    ///
    /// ```text
    /// ensures self.new ≡ drop count self.old
    /// ```
    /// [How to read it](crate::contracts)
    /// </details>
    #[inline]
    pub fn advance(&mut self, count: usize) {
        self.starts.advance(count);
    }

    /// Skips the last `count`, or all that remain.
    ///
    /// Takes no memory, and no time for each of them.
    ///
    /// Of the windows of `[2]` of `[4]`, without the last 2: the first one. What `nth_back` of std's iterators skips one by one.
    ///
    /// # Examples
    ///
    /// ```
    /// use ndarray_layout::{CanIndexCheckMode, Ix1, LayoutError, Strided};
    ///
    /// # fn main() -> Result<(), LayoutError> {
    /// let view = Strided::new(Ix1(4), Ix1(1), 1, 4, CanIndexCheckMode::ReadOnly)?;
    /// let mut windows = view.into_windows(&Ix1(2))?;
    /// windows.advance_back(2);
    /// assert_eq!(windows.try_next_back()?.map(|window| window.start()), Some(0));
    /// # Ok(())
    /// # }
    /// ```
    ///
    /// <details><summary>Contract (proved)</summary>
    ///
    /// ```text
    /// ensures self.new ≡ take (length self.old - count) self.old
    /// ```
    /// [How to read it](crate::contracts)
    /// </details>
    #[inline]
    pub fn advance_back(&mut self, count: usize) {
        self.starts.advance_back(count);
    }

    /// The next view; `None` where none is left.
    ///
    /// Takes the time to copy the lengths of a block and the strides, and that of its place (`into_places`).
    ///
    /// Of the windows of `[2]` of `[3]`, `[1]` from 0: `[2]`, `[1]` from 0, then from 1, then `None`. ndarray's `next`.
    ///
    /// # Errors
    ///
    /// Out of memory; never where the type fixes the count of axes or there are at most 4. The iterator is unchanged after it.
    ///
    /// # Examples
    ///
    /// ```
    /// use ndarray_layout::{CanIndexCheckMode, Ix1, LayoutError, Strided};
    ///
    /// # fn main() -> Result<(), LayoutError> {
    /// let view = Strided::new(Ix1(3), Ix1(1), 1, 3, CanIndexCheckMode::ReadOnly)?;
    /// let (mut windows, mut starts) = (view.into_windows(&Ix1(2))?, vec![]);
    /// while let Some(window) = windows.try_next()? {
    ///     starts.push(window.start());
    /// }
    /// assert_eq!(starts, [0, 1]);
    /// # Ok(())
    /// # }
    /// ```
    ///
    /// <details><summary>Contract (proved)</summary>
    ///
    /// ```text
    /// ensures memory: All (λ view. NeedsNoMemory D.NDIM (length view.shape)) self.old → IsOk result
    /// ensures unchanged: IfErr result (λ _. self.new ≡ self.old)
    /// ensures first: IfOk result (λ next. MatchOption next
    ///     ((self.old ≡ []) × (self.new ≡ [])) (λ view. self.old ≡ view ∷ self.new))
    /// ```
    /// [How to read it](crate::contracts)
    /// </details>
    #[inline]
    pub fn try_next(&mut self) -> Result<Option<Strided<D>>, AllocError> {
        if self.starts.has_ended() {
            return Ok(None);
        }
        let dim = self.block.duplicate()?;
        let strides = self.view.strides().duplicate()?;
        match self.starts.next() {
            Some(start) => Ok(Some(Strided { start, dim, strides })),
            None => Ok(None),
        }
    }

    /// The last view; `None` where none is left.
    ///
    /// Takes the time of `try_next`.
    ///
    /// Of the windows of `[2]` of `[3]`, `[1]` from 0: `[2]`, `[1]` from 1, then from 0, then `None`. ndarray's `next_back`.
    ///
    /// # Errors
    ///
    /// Those of `try_next`. The iterator is unchanged after one.
    ///
    /// # Examples
    ///
    /// ```
    /// use ndarray_layout::{CanIndexCheckMode, Ix1, LayoutError, Strided};
    ///
    /// # fn main() -> Result<(), LayoutError> {
    /// let view = Strided::new(Ix1(3), Ix1(1), 1, 3, CanIndexCheckMode::ReadOnly)?;
    /// let mut windows = view.into_windows(&Ix1(2))?;
    /// assert_eq!(windows.try_next_back()?.map(|window| window.start()), Some(1));
    /// # Ok(())
    /// # }
    /// ```
    ///
    /// <details><summary>Contract (proved)</summary>
    ///
    /// ```text
    /// ensures memory: All (λ view. NeedsNoMemory D.NDIM (length view.shape)) self.old → IsOk result
    /// ensures unchanged: IfErr result (λ _. self.new ≡ self.old)
    /// ensures last: IfOk result (λ next. MatchOption next
    ///     ((self.old ≡ []) × (self.new ≡ [])) (λ view. self.old ≡ self.new ++ view ∷ []))
    /// ```
    /// [How to read it](crate::contracts)
    /// </details>
    #[inline]
    pub fn try_next_back(&mut self) -> Result<Option<Strided<D>>, AllocError> {
        if self.starts.has_ended() {
            return Ok(None);
        }
        let dim = self.block.duplicate()?;
        let strides = self.view.strides().duplicate()?;
        match self.starts.next_back() {
            Some(start) => Ok(Some(Strided { start, dim, strides })),
            None => Ok(None),
        }
    }
}

impl<D: Lengths> Strided<D> {
    /// An iterator over the views of the chunks of a shape that lie side by side, in row-major order of their numbers, from both ends.
    ///
    /// `chunk` is the shape of a chunk, one length for each axis. Index `i` of chunk `n` has the place of the index `n * chunk + i` of
    /// the view. An axis has `len / chunk` chunks; what is left over at its end is left out.
    ///
    /// Takes time in proportion to the count of axes. A chunk takes the time of `BlockViews::try_next`.
    ///
    /// `[5]`, `[1]` from 0 in chunks of `[2]`: `[2]`, `[1]` from 0, and from 2. The layout of ndarray's `exact_chunks`.
    ///
    /// # Errors
    ///
    /// `IncompatibleShape` where `chunk` has more or fewer axes than the view; then `Unsupported` where a length of `chunk` is 0; then
    /// `Overflow` where the product of the counts of chunks and the lengths that are not 0 is greater than `isize::MAX`; then out of
    /// memory, never where the type fixes the count of axes or there are at most 4.
    ///
    /// # Examples
    ///
    /// ```
    /// use ndarray_layout::{CanIndexCheckMode, ErrorKind, Ix2, LayoutError, Strided, from_kind};
    ///
    /// # fn main() -> Result<(), LayoutError> {
    /// let view = Strided::new(Ix2(2, 5), Ix2(5, 1), 1, 10, CanIndexCheckMode::ReadOnly)?;
    /// let mut chunks = view.clone().into_chunks(&Ix2(2, 2))?;
    /// let second = chunks.try_next_back()?.expect("two chunks");
    /// assert_eq!((second.start(), second.dim(), second.strides()), (2, &Ix2(2, 2), &Ix2(5, 1)));
    /// assert_eq!(view.into_chunks(&Ix2(2, 0)).err(), Some(from_kind(ErrorKind::Unsupported).into()));
    /// # Ok(())
    /// # }
    /// ```
    ///
    /// <details><summary>Contract (proved)</summary>
    ///
    /// ```text
    /// ensures fault: shape_fault result ≡ chunks_fault None self.shape (D.list chunk.now)
    /// ensures memory: shape_fault result ≡ None → NeedsNoMemory D.NDIM (length self.shape) → IsOk result
    /// ensures views: IfOk result (λ left. left ≡ chunk_views (D.list chunk.now) self)
    /// ```
    /// [How to read it](crate::contracts)
    /// </details>
    #[inline]
    pub fn into_chunks(self, chunk: &D) -> Result<BlockViews<D>, LayoutError> {
        let starts = self.chunk_starts(chunk)?;
        let block = chunk.duplicate()?;
        Ok(BlockViews { view: self, block, starts: starts.into_places(Order::RowMajor) })
    }

    /// An iterator over the views of all windows of a shape, in row-major order of their first indices, from both ends.
    ///
    /// `window` is the shape of a window, one length for each axis. Index `i` of window `w` has the place of the index `w + i` of the
    /// view. An axis has `len - window + 1` windows, and none where the window is longer.
    ///
    /// Takes time in proportion to the count of axes. A window takes the time of `BlockViews::try_next`.
    ///
    /// `[3]`, `[1]` from 0 in windows of `[2]`: `[2]`, `[1]` from 0, and from 1. The layout of ndarray's `windows`.
    ///
    /// # Errors
    ///
    /// `IncompatibleShape` where `window` has more or fewer axes than the view; then `Unsupported` where a length of `window` is 0; then
    /// `Overflow` where the product of the counts of windows and the lengths that are not 0 is greater than `isize::MAX`; then out of
    /// memory, never where the type fixes the count of axes or there are at most 4.
    ///
    /// # Examples
    ///
    /// ```
    /// use ndarray_layout::{CanIndexCheckMode, ErrorKind, Ix1, LayoutError, Strided, from_kind};
    ///
    /// # fn main() -> Result<(), LayoutError> {
    /// let view = Strided::new(Ix1(3), Ix1(1), 1, 3, CanIndexCheckMode::ReadOnly)?;
    /// let mut windows = view.clone().into_windows(&Ix1(2))?;
    /// assert_eq!(windows.try_next()?.map(|window| window.start()), Some(0));
    /// assert_eq!(windows.try_next()?.map(|window| window.start()), Some(1));
    /// assert!(windows.try_next()?.is_none());
    /// assert_eq!(view.into_windows(&Ix1(0)).err(), Some(from_kind(ErrorKind::Unsupported).into()));
    /// # Ok(())
    /// # }
    /// ```
    ///
    /// <details><summary>Contract (proved)</summary>
    ///
    /// ```text
    /// ensures fault: shape_fault result ≡ windows_fault None self.shape (D.list window.now)
    /// ensures memory: shape_fault result ≡ None → NeedsNoMemory D.NDIM (length self.shape) → IsOk result
    /// ensures views: IfOk result (λ left. left ≡ window_views (D.list window.now) self)
    /// ```
    /// [How to read it](crate::contracts)
    /// </details>
    #[inline]
    pub fn into_windows(self, window: &D) -> Result<BlockViews<D>, LayoutError> {
        let starts = self.window_starts(window)?;
        let block = window.duplicate()?;
        Ok(BlockViews { view: self, block, starts: starts.into_places(Order::RowMajor) })
    }
}
