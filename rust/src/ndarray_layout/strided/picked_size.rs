// Made by `rust/erase` of `crates/ndarray_layout/src/strided/picked_size.rt`: edit that.
//! How many indices a slice argument leaves of a shape.

use crate::nd_base::{ErrorKind, Lengths, ShapeError, from_kind};
use crate::nd_slice::{AxisElems, Fit, SliceElems, SliceInfoElem, in_ndim_of, resolve_elem};
use crate::ndarray_layout::strided::Strided;

/// The product of the lengths that a slice argument leaves of a shape: how many indices. Errors: those of
/// `check_elems`.
///
/// # Conditions
///
/// The caller ensures that the product of the lengths that are not 0 is at most `isize::MAX`. Otherwise this call or a
/// later one panics or returns unspecified values.
///
/// <details><summary>Contract (proved)</summary>
///
/// ```text
/// requires nonzero_size shape.now ≤ limit
/// ensures fault: result_err result ≡ argument_fault fit shape.now elems.now
/// ensures size: IfOk result (λ count. count ≡ size (sliced_shape fit elems.now shape.now))
/// ```
/// [How to read it](crate::contracts)
/// </details>
#[inline]
fn picked_size(shape: &[usize], elems: &[SliceInfoElem], fit: Fit) -> Result<usize, ShapeError> {
    if in_ndim_of(elems) != shape.len() {
        return Err(from_kind(ErrorKind::IncompatibleShape));
    }
    let mut size = 1usize;
    for (len, elem) in AxisElems::new(shape, elems) {
        size *= resolve_elem(len, elem, fit)?.count();
    }
    Ok(size)
}

impl<D: Lengths> Strided<D> {
    /// The number of indices that a slice argument leaves of the view.
    ///
    /// Takes no memory, and time in proportion to the slices and indices of the argument.
    ///
    /// `1..;-2` of `[4]`: 2. The project's own.
    ///
    /// # Errors
    ///
    /// Those of `check_slice` on the shape: `IncompatibleShape` where the argument is for more axes
    /// than there are or for fewer; then that of the first element with one.
    ///
    /// # Examples
    ///
    /// ```
    /// use ndarray_layout::{CanIndexCheckMode, ErrorKind, Fit, Ix1, LayoutError, Strided, from_kind, s};
    ///
    /// # fn main() -> Result<(), LayoutError> {
    /// let view = Strided::new(Ix1(4), Ix1(1), 1, 4, CanIndexCheckMode::ReadOnly)?;
    /// assert_eq!(view.picked(&s![1..;-2], Fit::Strict)?, 2);
    /// assert_eq!(view.picked(&s![1..6], Fit::Clamp)?, 3);
    /// let refused = view.picked(&s![1..6], Fit::Strict);
    /// assert_eq!(refused.err(), Some(from_kind(ErrorKind::OutOfBounds)));
    /// # Ok(())
    /// # }
    /// ```
    ///
    /// <details><summary>Contract (proved)</summary>
    ///
    /// ```text
    /// ensures fault: result_err result ≡ argument_fault fit self.now.shape (S.list slices.now)
    /// ensures size: IfOk result (λ count. count ≡ size (sliced_shape fit (S.list slices.now) self.now.shape))
    /// ```
    /// [How to read it](crate::contracts)
    /// </details>
    #[inline]
    pub fn picked<S: SliceElems>(&self, slices: &S, fit: Fit) -> Result<usize, ShapeError> {
        picked_size(self.dim.slice(), slices.elems(), fit)
    }
}
