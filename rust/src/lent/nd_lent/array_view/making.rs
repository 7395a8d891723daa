// Made by `rust/erase` of `crates/nd_lent/src/array_view/making.rt`: edit that.
//! The ways to lend items as an array.

use crate::lent::nd_access::Reader;
use crate::lent::nd_lent::array_view::ArrayView;
use crate::ndarray_layout::{CanIndexCheckMode, LayoutError, Lengths, ShapeError, StrideShape, Strided};

impl<'a, T, D: Lengths> ArrayView<'a, T, D> {
    /// The array of a view over items.
    ///
    /// `[2]`, `[-1]` from 1 over 7 8 9 is `a`. The project's own.
    ///
    /// # Conditions
    ///
    /// The caller ensures that each place of it has an item; `over` checks it. This call panics where an index lies
    /// past the items; to see that takes time in proportion to the count of axes.
    ///
    /// # Examples
    ///
    /// ```
    /// use ndarray_layout::{ArrayView, CanIndexCheckMode, Ix1, LayoutError, Strided, unsigned};
    ///
    /// # fn main() -> Result<(), LayoutError> {
    /// let view = Strided::from_parts(1, Ix1(2), Ix1(unsigned(-1)), 1, 3, CanIndexCheckMode::ReadOnly)?;
    /// let a = ArrayView::new(view, &[7, 8, 9]);
    /// assert_eq!(a.to_vec()?, [8, 7]);
    /// # Ok(())
    /// # }
    /// ```
    ///
    /// <details><summary>Contract (proved)</summary>
    ///
    /// ```text
    /// requires HasItems (length items.now) view
    /// ensures items: result.items ≡ items.now
    /// ensures view: result.view ≡ view
    /// ```
    /// [How to read it](crate::contracts)
    /// </details>
    #[inline]
    #[must_use]
    pub fn new(view: Strided<D>, items: &'a [T]) -> Self {
        assert!(crate::arrays::has_items(&view, items.len()), "an index of the view is past the items");
        ArrayView::laid(view, items)
    }

    /// The array of a view over items.
    ///
    /// # Conditions
    ///
    /// The caller ensures that each place of it has one. Otherwise the behaviour is undefined.
    ///
    /// <details><summary>Contract (proved)</summary>
    ///
    /// ```text
    /// requires HasItems (length items.now) view
    /// ensures items: result.items ≡ items.now
    /// ensures view: result.view ≡ view
    /// ```
    /// [How to read it](crate::contracts)
    /// </details>
    #[inline]
    fn laid(view: Strided<D>, items: &'a [T]) -> Self {
        ArrayView { reader: Reader::of_slice(items), view }
    }

    /// The array of a view over items that are read by their places.
    ///
    /// # Conditions
    ///
    /// The caller ensures that each place of it has one. Otherwise the behaviour is undefined.
    ///
    /// <details><summary>Contract (proved)</summary>
    ///
    /// ```text
    /// requires IsRead reader.marks (length reader.items) view
    /// ensures items: result.items ≡ reader.entry.items
    /// ensures view: result.view ≡ view
    /// ```
    /// [How to read it](crate::contracts)
    /// </details>
    #[inline]
    pub(in crate::lent::nd_lent) fn of_reader(reader: Reader<'a, T>, view: Strided<D>) -> Self {
        ArrayView { reader, view }
    }

    /// The array of a shape, by its own strides or by given ones, over items.
    ///
    /// The lowest place of the layout is 0, the first item. Items past the layout, or between its places, are spare ones.
    ///
    /// `[2]` with the stride `[-1]` over 7 8 9 is `a`. ndarray's `from_shape`.
    ///
    /// # Errors
    ///
    /// Those of `Strided::from_shape` in read-only mode, over as many elements of one byte as there are items.
    ///
    /// # Examples
    ///
    /// ```
    /// use ndarray_layout::{ArrayView, Ix1, LayoutError, ShapeBuilder, unsigned};
    ///
    /// # fn main() -> Result<(), LayoutError> {
    /// let a = ArrayView::from_shape(Ix1(2).strides(Ix1(unsigned(-1)))?, &[7, 8, 9])?;
    /// assert_eq!(a.to_vec()?, [8, 7]);
    /// assert!(ArrayView::from_shape(Ix1(4), &[7, 8, 9]).is_err());
    /// # Ok(())
    /// # }
    /// ```
    ///
    /// <details><summary>Contract (proved)</summary>
    ///
    /// ```text
    /// ensures fault: shape_fault result ≡
    ///     acceptance_by_strides D.list 1 (length items.now) ReadOnly
    ///     (D.list shape.dim) shape.strides
    /// ensures given: shape_fault result ≡ None → IsSome (custom_strides shape.strides) → IsOk result
    /// ensures memory: shape_fault result ≡ None → NeedsNoMemory D.NDIM (length (D.list shape.dim)) → IsOk result
    /// ensures stored: IfOk result (λ a. a.items ≡ items.now)
    /// ensures view: IfOk result (λ a. a.view ≡
    ///     view_from_0 (D.list shape.dim)
    ///     (strides_list D.list (D.list shape.dim) shape.strides))
    /// ensures has_items: IfOk result (λ a. HasItems (length a.items) a.view)
    /// ```
    /// [How to read it](crate::contracts)
    /// </details>
    #[inline]
    pub fn from_shape(shape: impl Into<StrideShape<D>>, items: &'a [T]) -> Result<Self, LayoutError> {
        let len = items.len();
        let view = Strided::from_shape(shape.into(), 1, len, CanIndexCheckMode::ReadOnly)?;
        Ok(ArrayView::laid(view, items))
    }

    /// The array of a view over items, which may be fewer than those that the view was made for.
    ///
    /// Takes no memory, and time in proportion to the count of axes.
    ///
    /// `[2]`, `[-1]` from 1 over 7 8 9 is `a`; over 7 alone `OutOfBounds`. The project's own.
    ///
    /// # Errors
    ///
    /// `OutOfBounds` where an index of the view lies past the items; a view without an index is out of bounds where it
    /// reaches, by its span, past all of them. Those of `Strided::from_parts` in read-only mode, over elements of one byte.
    ///
    /// # Examples
    ///
    /// ```
    /// use ndarray_layout::{ArrayView, CanIndexCheckMode, ErrorKind, Ix1, LayoutError, Strided, unsigned};
    ///
    /// # fn main() -> Result<(), LayoutError> {
    /// let view = Strided::from_parts(1, Ix1(2), Ix1(unsigned(-1)), 1, 3, CanIndexCheckMode::ReadOnly)?;
    /// assert_eq!(ArrayView::over(view, &[7, 8, 9])?.to_vec()?, [8, 7]);
    /// let fault = ArrayView::over(view, &[7]).err();
    /// assert_eq!(fault.map(|error| error.kind()), Some(ErrorKind::OutOfBounds));
    /// # Ok(())
    /// # }
    /// ```
    ///
    /// <details><summary>Contract (proved)</summary>
    ///
    /// ```text
    /// ensures fault: result_err result ≡
    ///     acceptance_from view.start 1 (length items.now) ReadOnly view.shape view.strides
    /// ensures stored: IfOk result (λ a. a.items ≡ items.now)
    /// ensures view: IfOk result (λ a. a.view ≡ view)
    /// ensures has_items: IfOk result (λ a. HasItems (length a.items) a.view)
    /// ```
    /// [How to read it](crate::contracts)
    /// </details>
    #[inline]
    pub fn over(view: Strided<D>, items: &'a [T]) -> Result<Self, ShapeError> {
        let start = view.start();
        let view = view.moved_to(start, 1, items.len(), CanIndexCheckMode::ReadOnly)?;
        Ok(ArrayView::laid(view, items))
    }
}
