// Made by `rust/erase` of `crates/ndarray_layout/src/strided/reshaping.rt`: edit that.
//! Views that have the places of a view along another shape.

use crate::nd_base::{ErrorKind, LayoutError, Lengths, Order, from_kind};
use crate::nd_shape::size_of_shape_checked;
use crate::ndarray_layout::reshape::reshape_dim;
use crate::ndarray_layout::strided::Strided;

impl<D: Lengths> Strided<D> {
    /// The strides along which a shape has the places of the view in an order; 0 where there is no
    /// index. Errors: those of `reshape`.
    ///
    /// <details><summary>Contract (proved)</summary>
    ///
    /// ```text
    /// ensures fits: OnOk result (view_reshape_fault order (E.list shape.now) self.now ≡ None)
    /// ensures fault: IfErr result (λ e. IsReshapeError E.NDIM order (E.list shape.now) self.now e)
    /// ensures strides: IfOk result (λ d. all_signed (E.list d) ≡ strides_of order (E.list shape.now) self.now)
    /// ensures is_view: IsView self.now
    /// ```
    /// [How to read it](crate::contracts)
    /// </details>
    #[inline]
    fn reshaped_strides<E: Lengths>(&self, shape: &E, order: Order) -> Result<E, LayoutError> {
        let (lens, new_lens) = (self.dim.slice(), shape.slice());
        size_of_shape_checked(shape)?;
        let is_empty = lens.contains(&0);
        if is_empty != new_lens.contains(&0) {
            return Err(LayoutError::Shape(from_kind(ErrorKind::IncompatibleShape)));
        }
        if is_empty {
            return Ok(E::zeros(shape.ndim())?);
        }
        reshape_dim(&self.dim, &self.strides, shape, order)
    }

    /// The same places along another shape: each index of it has the place of the index of the view
    /// with the same flat index, in row-major or in column-major order.
    ///
    /// The place of the first index is unchanged, and no element is moved. Where there is no index the
    /// strides are 0. A shape of permitted size has another error than out of memory if and only if
    /// no strides at all have these places.
    ///
    /// `[2,3]` with strides `[3,1]` to `[3,2]`: `[2,1]` in row-major order, `IncompatibleLayout` in
    /// column-major order. What ndarray's `to_shape` does where it copies nothing.
    ///
    /// # Errors
    ///
    /// `Overflow` where the product of the lengths that are not 0 is greater than `isize::MAX`;
    /// then `IncompatibleShape` where one of the two shapes alone has no index; then out of memory,
    /// never where the type fixes the count of axes or there are at most 4; then
    /// `IncompatibleLayout` where two axes would have to be iterated over as one and can't; then
    /// `IncompatibleShape` where the sizes differ.
    ///
    /// # Examples
    ///
    /// ```
    /// use ndarray_layout::{CanIndexCheckMode, ErrorKind, Ix2, LayoutError, Order, Strided, from_kind};
    ///
    /// # fn main() -> Result<(), LayoutError> {
    /// let view = Strided::new(Ix2(2, 3), Ix2(3, 1), 1, 6, CanIndexCheckMode::ReadOnly)?;
    /// let reshaped = view.reshape(&Ix2(3, 2), Order::RowMajor)?;
    /// assert_eq!((reshaped.dim(), reshaped.strides()), (&Ix2(3, 2), &Ix2(2, 1)));
    /// let refused = view.reshape(&Ix2(3, 2), Order::ColumnMajor);
    /// assert_eq!(refused.err(), Some(from_kind(ErrorKind::IncompatibleLayout).into()));
    /// # Ok(())
    /// # }
    /// ```
    ///
    /// <details><summary>Contract (proved)</summary>
    ///
    /// ```text
    /// ensures fits: OnOk result (view_reshape_fault order (E.list shape.now) self.now ≡ None)
    /// ensures fault: IfErr result (λ e. IsReshapeError E.NDIM order (E.list shape.now) self.now e)
    /// ensures memory: view_reshape_fault order (E.list shape.now) self.now ≡ None →
    ///     NeedsNoMemory E.NDIM (length (E.list shape.now)) → IsOk result
    /// ensures complete: (view_reshape_fault order (E.list shape.now) self.now ≡ None)
    ///     ↔ ReshapeFits order (E.list shape.now) self.now
    /// ensures reshaped: IfOk result (λ v. v ≡ reshape_of order (E.list shape.now) self.now)
    /// ensures same_places: IfOk result (λ v. view_places order v ≡ view_places order self.now)
    /// ensures kept: IfOk result (λ v. Descends (reshape_source order self.now.shape (E.list shape.now)) self.now v)
    /// ```
    /// [How to read it](crate::contracts)
    /// </details>
    #[inline]
    pub fn reshape<E: Lengths>(&self, shape: &E, order: Order) -> Result<Strided<E>, LayoutError> {
        let strides = self.reshaped_strides(shape, order)?;
        Ok(Strided { start: self.start, dim: shape.duplicate()?, strides })
    }
}
