// Made by `rust/erase` of `crates/nd_lent/src/array_view_mut/making.rt`: edit that.
//! The checked ways to make a part.

use crate::lent::nd_access::Cells;
use crate::lent::nd_lent::array_view_mut::ArrayViewMut;
use crate::ndarray_layout::{CanIndexCheckMode, LayoutError, Lengths, ShapeError, StrideShape, Strided};

impl<'a, T, D: Lengths> ArrayViewMut<'a, T, D> {
    /// `new`, where the proof of the caller shows that each index has an item to itself: the package doesn't look again.
    ///
    /// <details><summary>Contract (proved)</summary>
    ///
    /// ```text
    /// requires IsOwned (length items.old) view
    /// ensures items: (array_of result).items ≡ items.old
    /// ensures view: (array_of result).view ≡ view
    /// ensures marks: (access_of result).marks ≡ replicate (length items.old) true
    /// ```
    /// [How to read it](crate::contracts)
    /// </details>
    #[inline(always)]
    fn of_own_items(view: Strided<D>, items: &'a mut [T]) -> Self {
        ArrayViewMut { cells: Cells::all_of(items), view }
    }

    /// The part of all indices of a view. That the items keep what is written is tested, and in no clause.
    ///
    /// `[2]`, `[-1]` from 1 over 7 8 9: (0) is 8, (1) is 7, and 9 is no part of it. The project's own.
    ///
    /// # Conditions
    ///
    /// The caller ensures that each index has an item to itself, as `Strided::from_shape`, `new` and `from_parts` check
    /// it in owned mode; `over` checks it. This call panics where two indices have one item, or one lies past the
    /// items. It takes memory only where the no-alias rule is broken: 8 bytes for each index, for a sort of the places,
    /// and panics where the allocation fails.
    ///
    /// # Examples
    ///
    /// ```
    /// use ndarray_layout::{CanIndexCheckMode, Ix1, LayoutError, ArrayViewMut, Strided, unsigned};
    ///
    /// # fn main() -> Result<(), LayoutError> {
    /// let mut items = [7, 8, 9];
    /// let view = Strided::from_parts(1, Ix1(2), Ix1(unsigned(-1)), 1, items.len(), CanIndexCheckMode::OwnedMutable)?;
    /// let part = ArrayViewMut::new(view, &mut items);
    /// assert_eq!((part.get(&0), part.get(&1), part.get(&2)), (Some(&8), Some(&7), None));
    /// # Ok(())
    /// # }
    /// ```
    ///
    /// <details><summary>Contract (proved)</summary>
    ///
    /// ```text
    /// requires IsOwned (length items.old) view
    /// ensures items: (array_of result).items ≡ items.old
    /// ensures view: (array_of result).view ≡ view
    /// ensures marks: (access_of result).marks ≡ replicate (length items.old) true
    /// ```
    /// [How to read it](crate::contracts)
    /// </details>
    #[inline]
    #[must_use]
    pub fn new(view: Strided<D>, items: &'a mut [T]) -> Self {
        assert!(
            crate::arrays::has_own_items(&view, items.len()),
            "two indices of the view share an item, or one is past the items"
        );
        ArrayViewMut::of_own_items(view, items)
    }
}

impl<'a, T: Sized, D: Lengths> ArrayViewMut<'a, T, D> {
    /// The part of all indices of a view over items, where each index has one of them to itself. The items may be fewer
    /// than those that the view was made for. That the items keep what is written is tested, and in no clause.
    ///
    /// Takes no memory, and time by the square of the count of axes at most.
    ///
    /// `[2]`, `[-1]` from 1 over 7 8 9: (0) is 8, (1) is 7; over 7 alone `OutOfBounds`. `[2,2]`, `[1,1]` from 0 over 7 8 9:
    /// `Unsupported`. The project's own.
    ///
    /// # Errors
    ///
    /// Those of `Strided::from_parts` in owned mode, over as many elements of one byte as there are items: `OutOfBounds` where
    /// an index of the view lies past the items; a view without an index is out of bounds where it reaches, by its span, past
    /// all of them; then `Unsupported` where two indices may alias.
    ///
    /// # Examples
    ///
    /// ```
    /// use ndarray_layout::{CanIndexCheckMode, ErrorKind, Ix1, Ix2, ArrayViewMut, Strided, unsigned};
    ///
    /// # fn main() -> Result<(), Box<dyn std::error::Error>> {
    /// let (mut items, mode) = ([7, 8, 9], CanIndexCheckMode::ReadOnly);
    /// let view = || Strided::from_parts(1, Ix1(2), Ix1(unsigned(-1)), 1, 3, mode);
    /// assert_eq!(ArrayViewMut::over(view()?, &mut items)?.get(&0), Some(&8));
    /// assert_eq!(ArrayViewMut::over(view()?, &mut [7]).unwrap_err().kind(), ErrorKind::OutOfBounds);
    /// let aliased = Strided::from_parts(0, Ix2(2, 2), Ix2(1, 1), 1, 3, mode)?;
    /// assert_eq!(ArrayViewMut::over(aliased, &mut items).unwrap_err().kind(), ErrorKind::Unsupported);
    /// # Ok(())
    /// # }
    /// ```
    ///
    /// <details><summary>Contract (proved)</summary>
    ///
    /// ```text
    /// ensures fault: result_err result ≡
    ///     acceptance_from view.start 1 (length items.old) OwnedMutable view.shape view.strides
    /// ensures items: IfOk result (λ part. (array_of part).items ≡ items.old)
    /// ensures view: IfOk result (λ part. (array_of part).view ≡ view)
    /// ensures owned: IfOk result (λ part. IsOwned (length (array_of part).items) (array_of part).view)
    /// ensures marks: IfOk result (λ part. (access_of part).marks ≡ replicate (length items.old) true)
    /// ```
    /// [How to read it](crate::contracts)
    /// </details>
    #[inline]
    pub fn over(view: Strided<D>, items: &'a mut [T]) -> Result<Self, ShapeError> {
        let start = view.start();
        let view = view.moved_to(start, 1, items.len(), CanIndexCheckMode::OwnedMutable)?;
        Ok(ArrayViewMut::new(view, items))
    }

    /// The part of a shape, by its own strides or by given ones, over items.
    ///
    /// The lowest place of the layout is 0, the first item. Items past the layout, or between its places, are no part
    /// of it. That the items keep what is written is tested, and in no clause.
    ///
    /// `[2]` with the stride `[-1]` over 7 8 9: (0) is 8, (1) is 7. ndarray's `from_shape`.
    ///
    /// # Errors
    ///
    /// Those of `Strided::from_shape` in owned mode, over as many elements of one byte as there are items.
    ///
    /// # Examples
    ///
    /// ```
    /// use ndarray_layout::{ErrorKind, Ix1, LayoutError, ArrayViewMut, ShapeBuilder, from_kind, unsigned};
    ///
    /// # fn main() -> Result<(), LayoutError> {
    /// let mut items = [7, 8, 9];
    /// let part = ArrayViewMut::from_shape(Ix1(2).strides(Ix1(unsigned(-1)))?, &mut items)?;
    /// assert_eq!((part.get(&0), part.get(&1)), (Some(&8), Some(&7)));
    /// let too_long = ArrayViewMut::from_shape(Ix1(4), &mut items);
    /// assert_eq!(too_long.err(), Some(from_kind(ErrorKind::OutOfBounds).into()));
    /// # Ok(())
    /// # }
    /// ```
    ///
    /// <details><summary>Contract (proved)</summary>
    ///
    /// ```text
    /// ensures fault: shape_fault result ≡
    ///     acceptance_by_strides D.list 1 (length items.old) OwnedMutable
    ///     (D.list shape.dim) shape.strides
    /// ensures given: shape_fault result ≡ None → IsSome (custom_strides shape.strides) → IsOk result
    /// ensures memory: shape_fault result ≡ None → NeedsNoMemory D.NDIM (length (D.list shape.dim)) → IsOk result
    /// ensures items: IfOk result (λ part. (array_of part).items ≡ items.old)
    /// ensures view: IfOk result (λ part. (array_of part).view ≡
    ///     view_from_0 (D.list shape.dim)
    ///     (strides_list D.list (D.list shape.dim) shape.strides))
    /// ensures owned: IfOk result (λ part. IsOwned (length (array_of part).items) (array_of part).view)
    /// ensures marks: IfOk result (λ part. (access_of part).marks ≡ replicate (length items.old) true)
    /// ```
    /// [How to read it](crate::contracts)
    /// </details>
    #[inline]
    pub fn from_shape(shape: impl Into<StrideShape<D>>, items: &'a mut [T]) -> Result<Self, LayoutError> {
        let len = items.len();
        let view = Strided::from_shape(shape.into(), 1, len, CanIndexCheckMode::OwnedMutable)?;
        Ok(ArrayViewMut::of_own_items(view, items))
    }
}
