// Made by `rust/erase` of `crates/ndarray_layout/src/strided/constructors.rt`: edit that.
//! Views of accepted layouts, and copies of a view.

use crate::memory::AllocError;
use crate::nd_base::{ErrorKind, LayoutError, Lengths, ShapeError, from_kind};
use crate::nd_shape::{
    CanIndexCheckMode, StrideShape, can_index_slice, can_index_slice_with_strides, dim_stride_overlap,
    max_abs_offset_check_overflow, offset_from_low_addr_ptr_to_logical_ptr,
};
use crate::ndarray_layout::strided::Strided;

/// Whether a layout that reaches so far above its start leaves data of `len` elements, or the
/// places up to the greatest `isize`.
///
/// A layout without an index may reach as far as there are elements.
///
/// <details><summary>Contract (proved)</summary>
///
/// ```text
/// requires high ≤ limit
/// ensures result ≡ (nat_lt limit (start + high)
///     || (if is_empty then nat_lt len (start + high) else nat_le len (start + high)))
/// ```
/// [How to read it](crate::contracts)
/// </details>
#[inline(always)]
fn reaches_past(start: usize, high: usize, len: usize, is_empty: bool) -> bool {
    if start > isize::MAX as usize - high {
        return true;
    }
    let highest = start + high;
    if is_empty { len < highest } else { len <= highest }
}

impl<D: Lengths> Strided<D> {
    /// The view of a shape and strides over data of `len` elements of `elem_size` bytes.
    ///
    /// `dim` and `strides` are one number for each axis; strides are in elements and with their
    /// sign (`signed`). The lowest place of the view is 0, the first element of the data. Each
    /// index is in bounds, and in owned mode no two indices alias.
    ///
    /// `[3]` with the stride `[-1]` over 3 elements: (0) lies at 2. The project's own.
    ///
    /// # Errors
    ///
    /// Those of `can_index_slice`, in its order.
    ///
    /// # Examples
    ///
    /// ```
    /// use ndarray_layout::{CanIndexCheckMode, ErrorKind, Ix1, LayoutError, Strided, from_kind, unsigned};
    ///
    /// # fn main() -> Result<(), LayoutError> {
    /// let (mode, backwards) = (CanIndexCheckMode::ReadOnly, Ix1(unsigned(-1)));
    /// let view = Strided::new(Ix1(3), backwards, 1, 3, mode)?;
    /// assert_eq!((view.place(&0), view.place(&2)), (Some(2), Some(0)));
    /// let refused = Strided::new(Ix1(3), backwards, 1, 2, mode);
    /// assert_eq!(refused.err(), Some(from_kind(ErrorKind::OutOfBounds)));
    /// # Ok(())
    /// # }
    /// ```
    ///
    /// <details><summary>Contract (proved)</summary>
    ///
    /// ```text
    /// ensures fault: result_err result ≡ acceptance elem_size len mode (D.list dim) (all_signed (D.list strides))
    /// ensures view: IfOk result (λ v. v ≡
    ///     view_of
    ///     (low_span (D.list dim) (all_signed (D.list strides)))
    ///     (D.list dim)
    ///     (D.list strides))
    /// ensures is_view: IfOk result (λ v. IsView v)
    /// ensures in_bounds: IfOk result (λ v. LiesWithin len v)
    /// ensures distinct: IfOk result (λ v. mode ≡ OwnedMutable → HasDistinctPlaces v)
    /// ```
    /// [How to read it](crate::contracts)
    /// </details>
    #[inline]
    pub fn new(dim: D, strides: D, elem_size: usize, len: usize, mode: CanIndexCheckMode) -> Result<Self, ShapeError> {
        can_index_slice(elem_size, len, &dim, &strides, mode)?;
        let start = offset_from_low_addr_ptr_to_logical_ptr(&dim, &strides);
        Ok(Strided { start, dim, strides })
    }

    /// The view of a shape and strides whose first index lies at a given place in data of `len`
    /// elements of `elem_size` bytes.
    ///
    /// `start` is that place, in elements from the start of the data. `dim` and `strides` are one
    /// number for each axis; strides are in elements and with their sign (`signed`). Each index is
    /// in bounds, and in owned mode no two indices alias. Where `start` is the lowest that there
    /// can be (`low_span`), the result is that of `new`.
    ///
    /// `[3]` with the stride `[-1]` over 5 elements: from 4 on (0) lies at 4 and (2) at 2; from 1
    /// on (2) would lie before the data. The project's own.
    ///
    /// # Errors
    ///
    /// Those of `span_of_lengths`; then `OutOfBounds` where an index lies before the data, past it
    /// or past the place `isize::MAX`; then, in owned mode, `Unsupported` where two indices may
    /// alias (`has_overlap`). A layout without an index is out of bounds where it reaches, by its
    /// span, below 0 or above `len`.
    ///
    /// # Examples
    ///
    /// ```
    /// use ndarray_layout::{CanIndexCheckMode, ErrorKind, Ix1, LayoutError, Strided, from_kind, unsigned};
    ///
    /// # fn main() -> Result<(), LayoutError> {
    /// let (mode, backwards) = (CanIndexCheckMode::ReadOnly, Ix1(unsigned(-1)));
    /// let view = Strided::from_parts(4, Ix1(3), backwards, 1, 5, mode)?;
    /// assert_eq!((view.place(&0), view.place(&2)), (Some(4), Some(2)));
    /// let refused = Strided::from_parts(1, Ix1(3), backwards, 1, 5, mode);
    /// assert_eq!(refused.err(), Some(from_kind(ErrorKind::OutOfBounds)));
    /// # Ok(())
    /// # }
    /// ```
    ///
    /// <details><summary>Contract (proved)</summary>
    ///
    /// ```text
    /// ensures fault: result_err result ≡
    ///     acceptance_from start elem_size len mode (D.list dim) (all_signed (D.list strides))
    /// ensures view: IfOk result (λ v. v ≡ view_of start (D.list dim) (D.list strides))
    /// ensures is_view: IfOk result (λ v. IsView v)
    /// ensures in_bounds: IfOk result (λ v. LiesWithin len v)
    /// ensures distinct: IfOk result (λ v. mode ≡ OwnedMutable → HasDistinctPlaces v)
    /// ```
    /// [How to read it](crate::contracts)
    /// </details>
    #[inline]
    pub fn from_parts(
        start: usize,
        dim: D,
        strides: D,
        elem_size: usize,
        len: usize,
        mode: CanIndexCheckMode,
    ) -> Result<Self, ShapeError> {
        let span = max_abs_offset_check_overflow(elem_size, &dim, &strides)?;
        let low = offset_from_low_addr_ptr_to_logical_ptr(&dim, &strides);
        let is_empty = dim.slice().contains(&0);
        if start < low || reaches_past(start, span - low, len, is_empty) {
            return Err(from_kind(ErrorKind::OutOfBounds));
        }
        if mode == CanIndexCheckMode::OwnedMutable && dim_stride_overlap(&dim, &strides) {
            return Err(from_kind(ErrorKind::Unsupported));
        }
        Ok(Strided { start, dim, strides })
    }

    /// The view of a shape by its own strides, row-major or column-major, or by given ones, over
    /// data of `len` elements of `elem_size` bytes.
    ///
    /// The lowest place of the view is 0, the first element of the data. Each index is in bounds,
    /// and in owned mode no two indices alias. In owned mode, and along the shape's own strides in
    /// any mode, a view with an index satisfies the no-alias rule of owned mode (`SatisfiesNoAliasRule`).
    ///
    /// `[2,3]` in column-major order over 6 elements: strides `[1,2]`. The project's own.
    ///
    /// # Errors
    ///
    /// Those of `can_index_slice_with_strides`, in its order; then out of memory, never where the
    /// strides are given, where the type fixes the count of axes or where there are at most 4.
    ///
    /// # Examples
    ///
    /// ```
    /// use ndarray_layout::{CanIndexCheckMode, Ix2, LayoutError, ShapeBuilder, Strided};
    ///
    /// # fn main() -> Result<(), LayoutError> {
    /// let (shape, mode) = (Ix2(2, 3).f()?, CanIndexCheckMode::OwnedMutable);
    /// let view = Strided::from_shape(shape.into(), 1, 6, mode)?;
    /// assert_eq!((view.dim(), view.strides()), (&Ix2(2, 3), &Ix2(1, 2)));
    /// assert!(Strided::from_shape(shape.into(), 1, 5, mode).is_err());
    /// # Ok(())
    /// # }
    /// ```
    ///
    /// <details><summary>Contract (proved)</summary>
    ///
    /// ```text
    /// ensures fault: shape_fault result ≡
    ///     acceptance_by_strides D.list elem_size len mode (D.list shape.dim) shape.strides
    /// ensures given: shape_fault result ≡ None → IsSome (custom_strides shape.strides) → IsOk result
    /// ensures memory: shape_fault result ≡ None → NeedsNoMemory D.NDIM (length (D.list shape.dim)) → IsOk result
    /// ensures view: IfOk result (λ v. v ≡
    ///     view_of
    ///     (low_span
    ///     (D.list shape.dim)
    ///     (all_signed (strides_list D.list (D.list shape.dim) shape.strides)))
    ///     (D.list shape.dim)
    ///     (strides_list D.list (D.list shape.dim) shape.strides))
    /// ensures is_view: IfOk result (λ v. IsView v)
    /// ensures in_bounds: IfOk result (λ v. LiesWithin len v)
    /// ensures distinct: IfOk result (λ v. mode ≡ OwnedMutable → HasDistinctPlaces v)
    /// ensures rule: IfOk result (λ v.
    ///     (custom_strides shape.strides ≡ None) ⊎ (mode ≡ OwnedMutable) →
    ///     is_empty v.shape ≡ false → SatisfiesNoAliasRule v.shape v.strides)
    /// ```
    /// [How to read it](crate::contracts)
    /// </details>
    #[inline]
    pub fn from_shape(
        shape: StrideShape<D>,
        elem_size: usize,
        len: usize,
        mode: CanIndexCheckMode,
    ) -> Result<Self, LayoutError> {
        let StrideShape { dim, strides } = shape;
        can_index_slice_with_strides(elem_size, len, &dim, &strides, mode)?;
        let strides = strides.strides_for_dim(&dim)?;
        let start = offset_from_low_addr_ptr_to_logical_ptr(&dim, &strides);
        Ok(Strided { start, dim, strides })
    }

    /// The same view, with a shape and strides of its own.
    ///
    /// In place of ndarray's `Clone`.
    ///
    /// # Errors
    ///
    /// Out of memory; never where the type fixes the count of axes or there are at most 4.
    ///
    /// # Examples
    ///
    /// ```
    /// use ndarray_layout::{Axis, CanIndexCheckMode, IxDyn, LayoutError, Strided};
    ///
    /// # fn main() -> Result<(), LayoutError> {
    /// let (shape, strides) = (IxDyn(&[2, 3]), IxDyn(&[3, 1]));
    /// let view = Strided::new(shape, strides, 1, 6, CanIndexCheckMode::ReadOnly)?;
    /// let mut copy = view.duplicate()?;
    /// assert_eq!(copy, view);
    /// copy.swap_axes(Axis(0), Axis(1))?;
    /// assert_eq!((copy.dim(), view.dim()), (&IxDyn(&[3, 2]), &IxDyn(&[2, 3])));
    /// # Ok(())
    /// # }
    /// ```
    ///
    /// <details><summary>Contract (proved)</summary>
    ///
    /// ```text
    /// ensures view: IfOk result (λ v. v ≡ self.now)
    /// ensures is_view: IfOk result (λ v. IsView v)
    /// ensures memory: NeedsNoMemory D.NDIM (length self.now.shape) → IsOk result
    /// ```
    /// [How to read it](crate::contracts)
    /// </details>
    #[inline]
    pub fn duplicate(&self) -> Result<Self, AllocError> {
        Ok(Strided { start: self.start, dim: self.dim.duplicate()?, strides: self.strides.duplicate()? })
    }
}
