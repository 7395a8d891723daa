// Made by `rust/erase` of `crates/nd_owned/src/owned/making.rt`: edit that.
//! The way to make an array of items that it owns.

use crate::lent::nd_owned::owned::OwnedArray;
use crate::memory::prelude::Vec;
use crate::ndarray_layout::{CanIndexCheckMode, LayoutError, Lengths, StrideShape, Strided};

impl<T: Sized, D: Lengths> OwnedArray<T, D> {
    /// The array of a shape, by its own strides or by given ones, over a list of items.
    ///
    /// The lowest place of the layout is 0, the first item of the list. Items past the layout, or between its places, are
    /// kept as spare ones.
    ///
    /// `[2]` with the stride `[-1]` over 7 8 9 is `a`. ndarray's `from_shape_vec`.
    ///
    /// # Errors
    ///
    /// Those of `Strided::from_shape` in owned mode, over as many elements of one byte as the list has items. The list
    /// comes back with the error.
    ///
    /// # Examples
    ///
    /// ```
    /// use ndarray_layout::{ErrorKind, Ix1, LayoutError, OwnedArray, ShapeBuilder, from_kind, unsigned};
    ///
    /// # fn main() -> Result<(), LayoutError> {
    /// let a = OwnedArray::from_shape_vec(Ix1(2).strides(Ix1(unsigned(-1)))?, vec![7, 8, 9])?;
    /// assert_eq!((a.get(&0), a.get(&1)), (Some(8), Some(7)));
    /// let too_long = OwnedArray::from_shape_vec(Ix1(4), vec![7, 8, 9]);
    /// let fault = from_kind(ErrorKind::OutOfBounds).into();
    /// assert_eq!(too_long, Err((fault, vec![7, 8, 9])));
    /// # Ok(())
    /// # }
    /// ```
    ///
    /// <details><summary>Contract (proved)</summary>
    ///
    /// ```text
    /// ensures fault: shape_fault_of result ≡
    ///     acceptance_by_strides D.list 1 (vec_len items) OwnedMutable
    ///     (D.list shape.dim) shape.strides
    /// ensures given: shape_fault_of result ≡ None → IsSome (custom_strides shape.strides) → IsOk result
    /// ensures memory: shape_fault_of result ≡ None → NeedsNoMemory D.NDIM (length (D.list shape.dim)) → IsOk result
    /// ensures stored: IfOk result (λ a. a.items ≡ items.items)
    /// ensures view: IfOk result (λ a. a.view ≡
    ///     view_from_0 (D.list shape.dim)
    ///     (strides_list D.list (D.list shape.dim) shape.strides))
    /// ensures owned: IfOk result (λ a. IsOwned (length a.items) a.view)
    /// ensures handed_back: IfErr result (λ error. error.1 ≡ items)
    /// ```
    /// [How to read it](crate::contracts)
    /// </details>
    #[inline]
    pub fn from_shape_vec(shape: impl Into<StrideShape<D>>, items: Vec<T>) -> Result<Self, (LayoutError, Vec<T>)> {
        let len = items.len();
        match Strided::from_shape(shape.into(), 1, len, CanIndexCheckMode::OwnedMutable) {
            Ok(view) => Ok(OwnedArray { items, view }),
            Err(fault) => Err((fault, items)),
        }
    }

    /// The array with a dimension of another type: `Strided::into_dimensionality`, with its errors.
    ///
    /// `[2,3]` at `IxDyn` becomes the same at `Ix2`. ndarray's `into_dimensionality`.
    ///
    /// # Examples
    ///
    /// ```
    /// use ndarray_layout::{OwnedArray, Ix1, Ix2, IxDyn, LayoutError};
    ///
    /// # fn main() -> Result<(), LayoutError> {
    /// let array: OwnedArray<i32, IxDyn> = OwnedArray::from_shape_vec(IxDyn(&[2, 3]), vec![1, 2, 3, 4, 5, 6])?;
    /// let array = array.into_dimensionality::<Ix2>()?;
    /// assert_eq!(array.dim(), &Ix2(2, 3));
    /// assert!(array.into_dimensionality::<Ix1>().is_err());
    /// # Ok(())
    /// # }
    /// ```
    ///
    /// <details><summary>Contract (proved)</summary>
    ///
    /// ```text
    /// ensures fault: shape_fault result ≡ count_fault E.NDIM (length self.view.shape)
    /// ensures memory: shape_fault result ≡ None → NeedsNoMemory E.NDIM (length self.view.shape) → IsOk result
    /// ensures array: IfOk result (λ a. a ≡ self)
    /// ```
    /// [How to read it](crate::contracts)
    /// </details>
    #[inline]
    pub fn into_dimensionality<E: Lengths>(self) -> Result<OwnedArray<T, E>, LayoutError> {
        let OwnedArray { items, view } = self;
        let view = view.into_dimensionality()?;
        Ok(OwnedArray { items, view })
    }
}
