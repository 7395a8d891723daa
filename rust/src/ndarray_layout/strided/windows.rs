// Made by `rust/erase` of `crates/ndarray_layout/src/strided/windows.rt`: edit that.
//! All windows of a view.

use crate::nd_base::{LayoutError, Lengths};
use crate::ndarray_layout::strided::Strided;
use crate::ndarray_layout::strided::blocks::{Blocks, block_axes, start_axes};

impl<D: Lengths> Strided<D> {
    /// The view of all windows of a shape: first the index of the window, then the index in it.
    ///
    /// `window` is the shape of a window, one length for each axis. Index `i` in window `w` has the
    /// place of the index `w + i` of the view. An axis has `len - window + 1` windows, and none where
    /// the window is longer. The strides are those of the view, twice; without an index all are 0.
    /// Windows may overlap, so their places need not be distinct.
    ///
    /// Takes time in proportion to the count of axes.
    ///
    /// `[4]`, `[1]` in windows of `[2]`: `[3,2]`, `[1,1]`. ndarray's `windows`, as one view; NumPy's
    /// `sliding_window_view`.
    ///
    /// # Errors
    ///
    /// `IncompatibleShape` where `window` has more or fewer axes than the view, or the type `E` fixes
    /// another count than twice as many; then `Unsupported` where a length of `window` is 0; then
    /// `Overflow` where the product of the lengths of the result that are not 0 is greater than
    /// `isize::MAX`; then out of memory, never where `E` fixes the count of axes or the result has at
    /// most 4.
    ///
    /// # Examples
    ///
    /// ```
    /// use ndarray_layout::{CanIndexCheckMode, ErrorKind, Ix1, Ix2, LayoutError, Strided, from_kind};
    ///
    /// # fn main() -> Result<(), LayoutError> {
    /// let view = Strided::new(Ix1(4), Ix1(1), 1, 4, CanIndexCheckMode::ReadOnly)?;
    /// let windows: Strided<Ix2> = view.windows(&Ix1(2))?;
    /// assert_eq!((windows.dim(), windows.strides()), (&Ix2(3, 2), &Ix2(1, 1)));
    /// assert_eq!((windows.place(&(0, 1)), windows.place(&(1, 0))), (Some(1), Some(1)));
    /// let refused = view.windows::<Ix2>(&Ix1(0));
    /// assert_eq!(refused.err(), Some(from_kind(ErrorKind::Unsupported).into()));
    /// # Ok(())
    /// # }
    /// ```
    ///
    /// <details><summary>Contract (proved)</summary>
    ///
    /// ```text
    /// ensures fault: shape_fault result ≡ windows_fault E.NDIM self.now.shape (D.list window.now)
    /// ensures memory: windows_fault E.NDIM self.now.shape (D.list window.now) ≡ None →
    ///     NeedsNoMemory E.NDIM (length self.now.shape + length self.now.shape) → IsOk result
    /// ensures windows: IfOk result (λ v. v ≡ windows_of (D.list window.now) self.now)
    /// ensures kept: IfOk result (λ v. IsViewOf (window_source (length self.now.shape)) self.now v)
    /// ```
    /// [How to read it](crate::contracts)
    /// </details>
    #[inline]
    pub fn windows<E: Lengths>(&self, window: &D) -> Result<Strided<E>, LayoutError> {
        let (shape, strides) = (self.dim.slice(), self.strides.slice());
        let (dim, strides) = block_axes(Blocks::Windows, shape, strides, window)?;
        Ok(Strided { start: self.start, dim, strides })
    }

    /// The view of the first index of each window of a shape: its indices are those of the windows. Errors: those of
    /// `Strided::into_windows`.
    ///
    /// <details><summary>Contract (proved)</summary>
    ///
    /// ```text
    /// ensures fault: shape_fault result ≡ windows_fault None self.now.shape (D.list window.now)
    /// ensures memory: windows_fault None self.now.shape (D.list window.now) ≡ None →
    ///     NeedsNoMemory D.NDIM (length self.now.shape) → IsOk result
    /// ensures starts: IfOk result (λ v. v ≡ window_starts_of (D.list window.now) self.now)
    /// ensures is_view: IsView self.now
    /// ```
    /// [How to read it](crate::contracts)
    /// </details>
    #[inline]
    pub(super) fn window_starts(&self, window: &D) -> Result<Self, LayoutError> {
        let (shape, strides) = (self.dim.slice(), self.strides.slice());
        let (dim, strides) = start_axes(Blocks::Windows, shape, strides, window)?;
        Ok(Strided { start: self.start, dim, strides })
    }
}
