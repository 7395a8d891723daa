// Made by `rust/erase` of `crates/nd_owned/src/owned/indexing.rt`: edit that.
//! The items of an array that owns them by their indices, each lent, and swaps of two.

use crate::lent::nd_access::{Cells, Reader};
use crate::lent::nd_owned::owned::OwnedArray;
use crate::ndarray_layout::{ErrorKind, Lengths, NdIndex, ShapeError, from_kind};

impl<T: Sized, D: Lengths> OwnedArray<T, D> {
    /// The item of an index, for brackets, which go on by the error: of an `Option` a loop over them would test for null.
    ///
    /// Of `a`: (0) is 8, (1) is 7, and (2) an error. ndarray's `index`.
    ///
    /// # Errors
    ///
    /// `OutOfBounds` where it is no index of the shape.
    ///
    /// <details><summary>Contract (proved)</summary>
    ///
    /// ```text
    /// ensures fault: result_err result ≡
    ///     (if is_index self.now.view.shape (I.index_list index.now) then None else Some OutOfBounds)
    /// ensures item: IfOk result (λ item. item_at self.now (I.index_list index.now) ≡ Some item.now)
    /// ```
    /// [How to read it](crate::contracts)
    /// </details>
    #[inline]
    pub(crate) fn try_item<I: NdIndex<D>>(&self, index: &I) -> Result<&T, ShapeError> {
        match self.view.place(index) {
            Some(place) => Ok(Reader::of_slice(self.items.as_slice()).get(place)),
            None => Err(from_kind(ErrorKind::OutOfBounds)),
        }
    }

    /// The item of an index, to be written, as `try_item`. That the array has what is written there is tested, and in no clause; `get_mut` has one.
    ///
    /// Of `a`: (0) is 8; 5 written there makes it 7 5 9. ndarray's `index_mut`.
    ///
    /// # Errors
    ///
    /// `OutOfBounds` where it is no index of the shape.
    ///
    /// <details><summary>Contract (proved)</summary>
    ///
    /// ```text
    /// ensures fault: result_err result ≡
    ///     (if is_index self.old.view.shape (I.index_list index.now) then None else Some OutOfBounds)
    /// ensures item: IfOk result (λ item. item_at self.old (I.index_list index.now) ≡ Some item.now)
    /// ```
    /// [How to read it](crate::contracts)
    /// </details>
    #[inline]
    pub(crate) fn try_item_mut<I: NdIndex<D>>(&mut self, index: &I) -> Result<&mut T, ShapeError> {
        match self.view.place(index) {
            Some(place) => {
                let alone = Cells::all_of(self.items.as_mut_slice()).take_slice(place, 1);
                Ok(&mut alone[0])
            }
            None => Err(from_kind(ErrorKind::OutOfBounds)),
        }
    }

    /// The item of an index, to be written; `None` where it is no index of the shape.
    ///
    /// Of `a`: (0) is 8; 5 written there makes it 7 5 9. ndarray's `get_mut`.
    ///
    /// # Examples
    ///
    /// ```
    /// use ndarray_layout::{Ix2, LayoutError, OwnedArray};
    ///
    /// # fn main() -> Result<(), LayoutError> {
    /// let mut array = OwnedArray::from_shape_vec(Ix2(2, 3), vec![1, 2, 3, 4, 5, 6])?;
    /// assert_eq!(array.get_mut(&(2, 0)), None);
    /// if let Some(item) = array.get_mut(&(1, 0)) {
    ///     *item += 30;
    /// }
    /// assert_eq!(array.into_stored(), [1, 2, 3, 34, 5, 6]);
    /// # Ok(())
    /// # }
    /// ```
    ///
    /// <details><summary>Contract (proved)</summary>
    ///
    /// ```text
    /// ensures found: IsSome result ↔ IsTrue (is_index self.old.view.shape (I.index_list index.now))
    /// ensures item: IfSome result (λ item. item_at self.old (I.index_list index.now) ≡ Some item.now)
    /// ```
    /// [How to read it](crate::contracts)
    /// </details>
    #[must_use]
    #[inline]
    pub fn get_mut<I: NdIndex<D>>(&mut self, index: &I) -> Option<&mut T> {
        match self.view.place(index) {
            Some(place) => Some(&mut self.items[place]),
            None => None,
        }
    }

    /// Swaps the items of two indices, and returns whether both are indices of the shape; else the array is unchanged.
    ///
    /// (0) and (1) of `a` make it 8 7 9. ndarray's `swap`, which panics where one is no index.
    ///
    /// # Examples
    ///
    /// ```
    /// use ndarray_layout::{Ix1, LayoutError, OwnedArray};
    ///
    /// # fn main() -> Result<(), LayoutError> {
    /// let mut array = OwnedArray::from_shape_vec(Ix1(2), vec![7, 8, 9])?;
    /// assert!(array.swap(&0, &1) && !array.swap(&0, &2));
    /// assert_eq!(array.into_stored(), [8, 7, 9]);
    /// # Ok(())
    /// # }
    /// ```
    ///
    /// <details><summary>Contract (proved)</summary>
    ///
    /// ```text
    /// ensures are_indices: result ≡ (is_index self.old.view.shape (I.index_list index.now)
    ///     && is_index self.old.view.shape (J.index_list other.now))
    /// ensures swapped: self.new ≡ with_swapped self.old (I.index_list index.now) (J.index_list other.now)
    /// ```
    /// [How to read it](crate::contracts)
    /// </details>
    #[must_use]
    #[inline]
    pub fn swap<I: NdIndex<D>, J: NdIndex<D>>(&mut self, index: &I, other: &J) -> bool {
        match (self.view.place(index), self.view.place(other)) {
            (Some(one), Some(other)) => {
                self.items.as_mut_slice().swap(one, other);
                true
            }
            _ => false,
        }
    }
}
