// Made by `rust/erase` of `crates/ndarray_layout/src/strided/chunks.rt`: edit that.
//! The chunks of a view that have one shape.

use crate::nd_base::{LayoutError, Lengths};
use crate::ndarray_layout::strided::Strided;
use crate::ndarray_layout::strided::blocks::{Blocks, block_axes, start_axes};

impl<D: Lengths> Strided<D> {
    /// The view of all chunks of a shape that lie side by side: first the number of the chunk along each
    /// axis, then the index in it.
    ///
    /// `chunk` is the shape of a chunk, one length for each axis. Index `i` in chunk `n` has the
    /// place of the index `n * chunk + i` of the view. An axis has `len / chunk` chunks; what is left
    /// over at its end is left out. From one chunk to the next the stride is that of the view times
    /// the chunk's length, and 0 where there is no next one; without an index all strides are 0.
    ///
    /// Takes time in proportion to the count of axes.
    ///
    /// `[5]`, `[1]` in chunks of `[2]`: `[2,2]`, `[2,1]`. ndarray's `exact_chunks`, as one view.
    ///
    /// # Errors
    ///
    /// `IncompatibleShape` where `chunk` has more or fewer axes than the view, or the type `E` fixes
    /// another count than twice as many; then `Unsupported` where a length of `chunk` is 0; then
    /// `Overflow` where the product of the lengths of the result that are not 0 is greater than
    /// `isize::MAX`; then out of memory, never where `E` fixes the count of axes or the result has at
    /// most 4.
    ///
    /// # Examples
    ///
    /// ```
    /// use ndarray_layout::{CanIndexCheckMode, ErrorKind, Ix1, Ix2, LayoutError, Strided, from_kind};
    ///
    /// # fn main() -> Result<(), LayoutError> {
    /// let view = Strided::new(Ix1(5), Ix1(1), 1, 5, CanIndexCheckMode::ReadOnly)?;
    /// let chunks: Strided<Ix2> = view.exact_chunks(&Ix1(2))?;
    /// assert_eq!((chunks.dim(), chunks.strides()), (&Ix2(2, 2), &Ix2(2, 1)));
    /// assert_eq!((chunks.place(&(0, 1)), chunks.place(&(1, 0))), (Some(1), Some(2)));
    /// let refused = view.exact_chunks::<Ix2>(&Ix1(0));
    /// assert_eq!(refused.err(), Some(from_kind(ErrorKind::Unsupported).into()));
    /// # Ok(())
    /// # }
    /// ```
    ///
    /// <details><summary>Contract (proved)</summary>
    ///
    /// ```text
    /// ensures fault: shape_fault result ≡ chunks_fault E.NDIM self.now.shape (D.list chunk.now)
    /// ensures memory: chunks_fault E.NDIM self.now.shape (D.list chunk.now) ≡ None →
    ///     NeedsNoMemory E.NDIM (length self.now.shape + length self.now.shape) → IsOk result
    /// ensures chunks: IfOk result (λ v. v ≡ chunks_of (D.list chunk.now) self.now)
    /// ensures kept: IfOk result (λ v. Descends (chunk_source (D.list chunk.now)) self.now v)
    /// ```
    /// [How to read it](crate::contracts)
    /// </details>
    #[inline]
    pub fn exact_chunks<E: Lengths>(&self, chunk: &D) -> Result<Strided<E>, LayoutError> {
        let (shape, strides) = (self.dim.slice(), self.strides.slice());
        let (dim, strides) = block_axes(Blocks::Chunks, shape, strides, chunk)?;
        Ok(Strided { start: self.start, dim, strides })
    }

    /// The view of the first index of each chunk of a shape: its indices are the numbers of the chunks. Errors: those of
    /// `Strided::into_chunks`.
    ///
    /// <details><summary>Contract (proved)</summary>
    ///
    /// ```text
    /// ensures fault: shape_fault result ≡ chunks_fault None self.now.shape (D.list chunk.now)
    /// ensures memory: chunks_fault None self.now.shape (D.list chunk.now) ≡ None →
    ///     NeedsNoMemory D.NDIM (length self.now.shape) → IsOk result
    /// ensures starts: IfOk result (λ v. v ≡ chunk_starts_of (D.list chunk.now) self.now)
    /// ensures is_view: IsView self.now
    /// ```
    /// [How to read it](crate::contracts)
    /// </details>
    #[inline]
    pub(super) fn chunk_starts(&self, chunk: &D) -> Result<Self, LayoutError> {
        let (shape, strides) = (self.dim.slice(), self.strides.slice());
        let (dim, strides) = start_axes(Blocks::Chunks, shape, strides, chunk)?;
        Ok(Strided { start: self.start, dim, strides })
    }
}
