// Made by `rust/erase` of `crates/ndarray_layout/src/strided/diagonal.rt`: edit that.
//! The diagonal of a view.

use crate::nd_base::{Ix1, Lengths, new_ix1, signed, unsigned};
use crate::ndarray_layout::strided::Strided;

/// How many indices have the same coordinate on each axis.
///
/// <details><summary>Contract (proved)</summary>
///
/// ```text
/// ensures result ≡ len_along shape.now
/// ```
/// [How to read it](crate::contracts)
/// </details>
#[inline(always)]
fn diagonal_len(shape: &[usize]) -> usize {
    let mut least = if shape.is_empty() { 1 } else { shape[0] };
    for len in shape {
        least = least.min(*len);
    }
    least
}

/// The stride from one of these indices to the next; 0 where there is no next one.
///
/// <details><summary>Contract (proved)</summary>
///
/// ```text
/// requires valid: IsValidLayout shape.now (all_signed strides.now)
/// requires least: len ≡ len_along shape.now
/// ensures signed_reading result ≡ stride_along len (all_signed strides.now)
/// ```
/// [How to read it](crate::contracts)
/// </details>
#[inline(always)]
fn diagonal_stride(len: usize, shape: &[usize], strides: &[usize]) -> usize {
    // (without a second index the strides are any numbers, whose sum may pass the type)
    if len < 2 {
        return 0;
    }
    let mut sum = 0isize;
    for stride in strides {
        sum += signed(*stride);
    }
    unsigned(sum)
}

impl<D: Lengths> Strided<D> {
    /// The view of the indices that have the same coordinate on each axis.
    ///
    /// Its length is the least length, and 1 where there are no axes. Its stride is the sum of the
    /// strides, and 0 where the length is at most 1. The start is unchanged.
    ///
    /// Takes time in proportion to the count of axes, and no memory.
    ///
    /// `[2,3]`, `[3,1]`: `[2]`, `[4]`. ndarray's `diag`.
    ///
    /// # Examples
    ///
    /// ```
    /// use ndarray_layout::{CanIndexCheckMode, Ix1, Ix2, LayoutError, Order, Strided};
    ///
    /// # fn main() -> Result<(), LayoutError> {
    /// let view = Strided::new(Ix2(2, 3), Ix2(3, 1), 1, 6, CanIndexCheckMode::ReadOnly)?;
    /// let diagonal = view.diag();
    /// assert_eq!((diagonal.dim(), diagonal.strides()), (&Ix1(2), &Ix1(4)));
    /// assert_eq!(diagonal.places(Order::RowMajor)?, [0, 4]);
    /// # Ok(())
    /// # }
    /// ```
    ///
    /// <details><summary>Contract (proved)</summary>
    ///
    /// ```text
    /// ensures diagonal: result ≡ diagonal_of self.now
    /// ensures kept: Descends (diagonal_source (length self.now.shape)) self.now result
    /// ```
    /// [How to read it](crate::contracts)
    /// </details>
    #[inline]
    #[must_use]
    pub fn diag(&self) -> Strided<Ix1> {
        let (shape, strides) = (self.dim.slice(), self.strides.slice());
        let len = diagonal_len(shape);
        let stride = diagonal_stride(len, shape, strides);
        Strided { start: self.start, dim: new_ix1(len), strides: new_ix1(stride) }
    }
}
