// Made by `rust/erase` of `crates/nd_lent/src/array_view_mut/writing.rt`: edit that.
//! Writes to all items of a part, and swaps of two.

use crate::lent::nd_lent::array_view::ArrayView;
use crate::lent::nd_lent::array_view_mut::ArrayViewMut;
use crate::lent::nd_loops::{copy_view, map_nearest, nearest_views};
use crate::ndarray_layout::{ErrorKind, Lengths, NdIndex, ShapeError, from_kind};

impl<'a, T: Sized, D: Lengths> ArrayViewMut<'a, T, D> {
    /// Swaps the items of two indices, and returns whether both are indices of the shape; else the part is unchanged.
    ///
    /// `[2]`, `[2]` from 0 over 7 8 9: (0) and (1) make the items 9 8 7. ndarray's `swap`, which panics where one is no index.
    ///
    /// # Examples
    ///
    /// ```
    /// use ndarray_layout::{ArrayViewMut, Ix2, LayoutError};
    ///
    /// # fn main() -> Result<(), LayoutError> {
    /// let mut items = ["a", "b", "c", "d"];
    /// let mut part = ArrayViewMut::from_shape(Ix2(2, 2), &mut items)?;
    /// assert!(part.swap(&(0, 1), &(1, 0)));
    /// assert!(!part.swap(&(0, 0), &(0, 2)));
    /// assert_eq!(items, ["a", "c", "b", "d"]);
    /// # Ok(())
    /// # }
    /// ```
    ///
    /// <details><summary>Contract (proved)</summary>
    ///
    /// ```text
    /// ensures are_indices: result ≡
    ///     (is_index (array_of self.old).view.shape (I.index_list index.now)
    ///     && is_index (array_of self.old).view.shape (J.index_list other.now))
    /// ensures swapped: array_of self.new ≡ with_swapped (array_of self.old)
    ///     (I.index_list index.now) (J.index_list other.now)
    /// ensures keeps_access: access_of self.new ≡ access_of self.old
    /// ```
    /// [How to read it](crate::contracts)
    /// </details>
    #[inline]
    #[must_use]
    pub fn swap<I: NdIndex<D>, J: NdIndex<D>>(&mut self, index: &I, other: &J) -> bool {
        match (self.view.place(index), self.view.place(other)) {
            (Some(one), Some(other)) => {
                self.cells.swap(one, other);
                true
            }
            _ => false,
        }
    }
}

/// A part of at most this many indices is filled without a sort of its axes, which takes longer than to write its items.
const FEW: usize = 16;

impl<'a, T: Sized + Clone, D: Lengths> ArrayViewMut<'a, T, D> {
    /// Writes an item at each index. Other items are unchanged.
    ///
    /// Takes no memory. Goes over the items in the order in which they lie, as `map_in_place_nearest` does; with at most 16 indices in
    /// row-major order, which takes less time than to sort the axes.
    ///
    /// 5 to `[2]`, `[-1]` from 1 over 7 8 9: 5 5 9. ndarray's `fill`.
    ///
    /// # Examples
    ///
    /// ```
    /// use ndarray_layout::{Ix2, LayoutError, OwnedArray, s};
    ///
    /// # fn main() -> Result<(), LayoutError> {
    /// let mut table = OwnedArray::from_shape_vec(Ix2(2, 2), vec!["a".to_string(); 4])?;
    /// let [mut left, mut right] = table.multi_slice_mut([s![.., 0], s![.., 1]])?;
    /// left.fill("b".to_string());
    /// right.fill("c".to_string());
    /// assert_eq!(table.stored(), ["b", "c", "b", "c"]);
    /// # Ok(())
    /// # }
    /// ```
    ///
    /// <details><summary>Contract (proved)</summary>
    ///
    /// ```text
    /// ensures filled: HasItemsOf (λ index. Some item) (array_of self.old) (array_of self.new)
    /// ensures count: length (array_of self.new).items ≡ length (array_of self.old).items
    /// ensures keeps_access: access_of self.new ≡ access_of self.old
    /// ```
    /// [How to read it](crate::contracts)
    /// </details>
    #[inline]
    pub fn fill(&mut self, item: T) {
        map_nearest(&mut self.cells, &self.view, FEW, move |stored: &mut T| {
            stored.clone_from(&item);
        });
    }

    /// Writes at each index a copy of the item that an array of the same shape has there.
    ///
    /// <details><summary>Contract (proved)</summary>
    ///
    /// ```text
    /// requires (array_of self.old).view.shape ≡ other.now.view.shape
    /// ensures copied: HasItemsOf (item_at other.now) (array_of self.old) (array_of self.new)
    /// ensures count: length (array_of self.new).items ≡ length (array_of self.old).items
    /// ensures keeps_access: access_of self.new ≡ access_of self.old
    /// ```
    /// [How to read it](crate::contracts)
    /// </details>
    #[inline]
    fn copy_items(&mut self, other: &ArrayView<'_, T, D>) {
        match nearest_views(&self.view, other.strided()) {
            Some((nearest, beside)) => {
                copy_view(&mut self.cells, &nearest, other.reader(), &beside);
            }
            None => {
                let source = other.strided();
                copy_view(&mut self.cells, &self.view, other.reader(), source);
            }
        }
    }

    /// Writes at each index a copy of the item that another array of the same shape has there. Other items are unchanged.
    ///
    /// Takes no memory. Goes over the items in the order in which they lie here: with at most 6 axes over the longest rows that the
    /// axes of both allow once they are turned and sorted by the strides here (`Strided::nearest_with`), with more axes in row-major
    /// order. Rows whose items follow one another in both are copied as slices.
    ///
    /// 5 6 to `[2]`, `[-1]` from 1 over 7 8 9: 6 5 9. ndarray's `assign`.
    ///
    /// # Errors
    ///
    /// `IncompatibleShape` where the shapes differ; the items are unchanged. (A shape that can be broadcast is an error too:
    /// `ArrayView::broadcast` comes first.)
    ///
    /// # Examples
    ///
    /// ```
    /// use ndarray_layout::{ArrayView, ArrayViewMut, ErrorKind, Ix1, Ix2, LayoutError, from_kind};
    ///
    /// # fn main() -> Result<(), LayoutError> {
    /// let mut items = [1, 2, 3, 4, 5, 6];
    /// let mut part = ArrayViewMut::from_shape(Ix2(2, 3), &mut items)?;
    /// let others = ArrayView::from_shape(Ix1(2), &[7, 8])?;
    /// part.column_mut(1)?.assign(&others)?;
    /// assert_eq!(part.row_mut(1)?.assign(&others), Err(from_kind(ErrorKind::IncompatibleShape)));
    /// assert_eq!(items, [1, 7, 3, 4, 8, 6]);
    /// # Ok(())
    /// # }
    /// ```
    ///
    /// <details><summary>Contract (proved)</summary>
    ///
    /// ```text
    /// ensures fits: IsOk result ↔ ((array_of self.old).view.shape ≡ other.now.view.shape)
    /// ensures fault: OnErr result (result_err result ≡ Some IncompatibleShape)
    /// ensures unchanged: OnErr result (array_of self.new ≡ array_of self.old)
    /// ensures assigned: OnOk result (HasItemsOf (item_at other.now) (array_of self.old) (array_of self.new))
    /// ensures count: length (array_of self.new).items ≡ length (array_of self.old).items
    /// ensures keeps_access: access_of self.new ≡ access_of self.old
    /// ```
    /// [How to read it](crate::contracts)
    /// </details>
    #[inline]
    pub fn assign(&mut self, other: &ArrayView<'_, T, D>) -> Result<(), ShapeError> {
        if !self.view.dim().equal(other.dim()) {
            return Err(from_kind(ErrorKind::IncompatibleShape));
        }
        self.copy_items(other);
        Ok(())
    }
}
