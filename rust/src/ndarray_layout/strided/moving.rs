// Made by `rust/erase` of `crates/ndarray_layout/src/strided/moving.rt`: edit that.
//! A view with its first index at another place.

use crate::nd_base::{Lengths, ShapeError};
use crate::nd_shape::CanIndexCheckMode;
use crate::ndarray_layout::strided::Strided;

impl<D: Lengths> Strided<D> {
    /// The view of the same shape and strides whose first index lies at `start`, in elements from the start of data of `len`
    /// elements of `elem_size` bytes.
    ///
    /// `[3]`, `[-1]` from 4, moved to 2 over 3 elements: (0) lies at 2 and (2) at 0; moved to 1: `OutOfBounds`. The project's
    /// own.
    ///
    /// # Errors
    ///
    /// Those of `from_parts`. Takes no memory.
    ///
    /// # Examples
    ///
    /// ```
    /// use ndarray_layout::{CanIndexCheckMode, ErrorKind, Ix1, LayoutError, Strided, from_kind, unsigned};
    ///
    /// # fn main() -> Result<(), LayoutError> {
    /// let mode = CanIndexCheckMode::ReadOnly;
    /// let view = Strided::from_parts(4, Ix1(3), Ix1(unsigned(-1)), 1, 5, mode)?;
    /// let moved = view.moved_to(2, 1, 3, mode)?;
    /// assert_eq!((moved.place(&0), moved.place(&2)), (Some(2), Some(0)));
    /// let refused = view.moved_to(1, 1, 3, mode);
    /// assert_eq!(refused.err(), Some(from_kind(ErrorKind::OutOfBounds)));
    /// # Ok(())
    /// # }
    /// ```
    ///
    /// <details><summary>Contract (proved)</summary>
    ///
    /// ```text
    /// ensures fault: result_err result ≡ acceptance_from start elem_size len mode self.shape self.strides
    /// ensures view: IfOk result (λ v. v ≡ record { start = start; shape = self.shape; strides = self.strides })
    /// ensures is_view: IfOk result (λ v. IsView v)
    /// ensures in_bounds: IfOk result (λ v. LiesWithin len v)
    /// ensures distinct: IfOk result (λ v. mode ≡ OwnedMutable → HasDistinctPlaces v)
    /// ```
    /// [How to read it](crate::contracts)
    /// </details>
    #[inline]
    pub fn moved_to(
        self,
        start: usize,
        elem_size: usize,
        len: usize,
        mode: CanIndexCheckMode,
    ) -> Result<Self, ShapeError> {
        let Strided { start: _, dim, strides } = self;
        Strided::from_parts(start, dim, strides, elem_size, len, mode)
    }
}
