// Made by `rust/erase` of `crates/nd_owned/src/owned.rt`: edit that.
//! An array that owns its items.

use crate::memory::prelude::Vec;

mod making;
mod mapping;
mod indexing;
mod by_index;
mod taking;
mod tiles;

use crate::lent::nd_lent::{ArrayView, ArrayViewMut};
use crate::lent::nd_owned::even_rows::even_rows_of;
use crate::lent::nd_owned::multi_set::{check_apart, check_counts, picked_by_write, picked_views, write_all};
use crate::lent::nd_owned::picked_view::PickedView;
use crate::lent::nd_owned::rows::{read_rows, write_rows};
use crate::memory::AllocError;
use crate::ndarray_layout::{
    ErrorKind, LayoutError, Lengths, NdIndex, Order, SliceElems, SliceInfoElem, Strided, from_kind,
};

/// An array that owns its items. Each index of its shape has an item, at its place in the list of the items, and no two
/// indices alias. Items at no place of the layout are spare ones, and no call shows them but `stored`, `stored_mut` and
/// `into_stored`.
///
/// In the examples `a` is `[2]` with the stride `[-1]` over 7 8 9: (0) is 8, (1) is 7, and 9 is spare.
pub struct OwnedArray<T, D: Lengths> {
    items: Vec<T>,
    view: Strided<D>,
}

impl<T: Sized, D: Lengths> OwnedArray<T, D> {
    /// The view: the shape, the strides and the place of the first index. Each place of it has an item, and no two indices
    /// alias.
    ///
    /// `a.strided()` is `[2]`, `[-1]` from 1. The project's own.
    ///
    /// # Examples
    ///
    /// ```
    /// use ndarray_layout::{Ix1, LayoutError, OwnedArray, ShapeBuilder, signed, unsigned};
    ///
    /// # fn main() -> Result<(), LayoutError> {
    /// let a = OwnedArray::from_shape_vec(Ix1(2).strides(Ix1(unsigned(-1)))?, vec![7, 8, 9])?;
    /// assert_eq!((a.strided().dim(), a.strided().start()), (&Ix1(2), 1));
    /// assert_eq!(signed(a.strided().strides()[0]), -1);
    /// # Ok(())
    /// # }
    /// ```
    ///
    /// <details><summary>Contract (proved)</summary>
    ///
    /// ```text
    /// ensures view: result.now ≡ self.now.view
    /// ensures owned: IsOwned (length self.now.items) self.now.view
    /// ```
    /// [How to read it](crate::contracts)
    /// </details>
    #[must_use]
    #[inline]
    pub fn strided(&self) -> &Strided<D> {
        &self.view
    }

    /// The shape. ndarray's `raw_dim`, which copies it.
    ///
    /// # Examples
    ///
    /// ```
    /// use ndarray_layout::{Ix2, LayoutError, OwnedArray};
    ///
    /// # fn main() -> Result<(), LayoutError> {
    /// let table = OwnedArray::from_shape_vec(Ix2(2, 3), vec![0, 1, 2, 3, 4, 5])?;
    /// assert_eq!(table.dim(), &Ix2(2, 3));
    /// # Ok(())
    /// # }
    /// ```
    ///
    /// <details><summary>Contract (proved)</summary>
    ///
    /// ```text
    /// ensures list: D.list result.now ≡ self.now.view.shape
    /// ```
    /// [How to read it](crate::contracts)
    /// </details>
    #[must_use]
    #[inline]
    pub fn dim(&self) -> &D {
        self.view.dim()
    }

    /// How many indices the shape has; spare items don't count.
    ///
    /// `a.len()` is 2. ndarray's `len`.
    ///
    /// # Examples
    ///
    /// ```
    /// use ndarray_layout::{Ix1, LayoutError, OwnedArray, ShapeBuilder, unsigned};
    ///
    /// # fn main() -> Result<(), LayoutError> {
    /// let a = OwnedArray::from_shape_vec(Ix1(2).strides(Ix1(unsigned(-1)))?, vec![7, 8, 9])?;
    /// assert_eq!((a.len(), a.stored().len()), (2, 3));
    /// # Ok(())
    /// # }
    /// ```
    ///
    /// <details><summary>Contract (proved)</summary>
    ///
    /// ```text
    /// ensures result ≡ size self.now.view.shape
    /// ```
    /// [How to read it](crate::contracts)
    /// </details>
    #[inline]
    #[must_use]
    pub fn len(&self) -> usize {
        self.view.len()
    }

    /// Whether the shape has no index. ndarray's `is_empty`.
    ///
    /// # Examples
    ///
    /// ```
    /// use ndarray_layout::{Ix2, LayoutError, OwnedArray};
    ///
    /// # fn main() -> Result<(), LayoutError> {
    /// assert!(!OwnedArray::from_shape_vec(Ix2(1, 3), vec![7, 8, 9])?.is_empty());
    /// assert!(OwnedArray::from_shape_vec(Ix2(0, 3), vec![7, 8, 9])?.is_empty());
    /// # Ok(())
    /// # }
    /// ```
    ///
    /// <details><summary>Contract (proved)</summary>
    ///
    /// ```text
    /// ensures IsTrue result ↔ (size self.now.view.shape ≡ 0)
    /// ```
    /// [How to read it](crate::contracts)
    /// </details>
    #[inline]
    #[must_use]
    pub fn is_empty(&self) -> bool {
        self.view.is_empty()
    }

    /// All items as they are stored, spare ones too.
    ///
    /// `a.stored()` is 7 8 9. ndarray's `as_slice_memory_order`, where no item is spare.
    ///
    /// # Examples
    ///
    /// ```
    /// use ndarray_layout::{Ix1, LayoutError, OwnedArray, ShapeBuilder, unsigned};
    ///
    /// # fn main() -> Result<(), LayoutError> {
    /// let a = OwnedArray::from_shape_vec(Ix1(2).strides(Ix1(unsigned(-1)))?, vec![7, 8, 9])?;
    /// assert_eq!(a.stored(), [7, 8, 9]);
    /// assert_eq!(a.try_view()?.to_vec()?, [8, 7]);
    /// # Ok(())
    /// # }
    /// ```
    ///
    /// <details><summary>Contract (proved)</summary>
    ///
    /// ```text
    /// ensures items: result.now ≡ self.now.items
    /// ensures owned: IsOwned (length self.now.items) self.now.view
    /// ```
    /// [How to read it](crate::contracts)
    /// </details>
    #[must_use]
    #[inline]
    pub fn stored(&self) -> &[T] {
        self.items.as_slice()
    }

    /// The items as a slice, to be read, where their places follow one another in row-major order; else `None`.
    ///
    /// Takes no memory, and time in proportion to the count of axes.
    ///
    /// `[2]` of 7 8 9: 7 8; `a.as_slice()` is `None`. ndarray's `as_slice`.
    ///
    /// # Examples
    ///
    /// ```
    /// use ndarray_layout::{Ix2, LayoutError, OwnedArray, ShapeBuilder};
    ///
    /// # fn main() -> Result<(), LayoutError> {
    /// let array = OwnedArray::from_shape_vec(Ix2(1, 2), vec![7, 8, 9])?;
    /// assert_eq!(array.as_slice(), Some(&[7, 8][..]));
    /// let columns = OwnedArray::from_shape_vec(Ix2(2, 2).f()?, vec![7, 8, 9, 10])?;
    /// assert_eq!(columns.as_slice(), None);
    /// # Ok(())
    /// # }
    /// ```
    ///
    /// <details><summary>Contract (proved)</summary>
    ///
    /// ```text
    /// ensures found: IsSome result ↔ IsStretch RowMajor self.now.view
    /// ensures items: IfSome result (λ slice. map Some slice.now ≡
    ///     map (item_at_place self.now.items) (view_places RowMajor self.now.view))
    /// ```
    /// [How to read it](crate::contracts)
    /// </details>
    #[must_use]
    #[inline]
    pub fn as_slice(&self) -> Option<&[T]> {
        let places = self.view.stretch(Order::RowMajor)?;
        let items = self.stored();
        Some(&items[places.start..places.end])
    }

    /// All items as they are stored, spare ones too, to be written. Their count and the view are unchanged.
    ///
    /// Of `a`, 5 at the end of the list makes it 7 8 5, and (0) is 8 still. ndarray's `as_slice_memory_order_mut`, where no item
    /// is spare.
    ///
    /// # Examples
    ///
    /// ```
    /// use ndarray_layout::{Ix1, LayoutError, OwnedArray, ShapeBuilder, unsigned};
    ///
    /// # fn main() -> Result<(), LayoutError> {
    /// let mut a = OwnedArray::from_shape_vec(Ix1(2).strides(Ix1(unsigned(-1)))?, vec![7, 8, 9])?;
    /// a.stored_mut()[2] = 5;
    /// assert_eq!(a.stored(), [7, 8, 5]);
    /// assert_eq!(a.get(&0), Some(8));
    /// # Ok(())
    /// # }
    /// ```
    ///
    /// <details><summary>Contract (proved)</summary>
    ///
    /// ```text
    /// ensures items: result.now ≡ self.old.items
    /// ensures owned: IsOwned (length self.old.items) self.old.view
    /// ```
    /// [How to read it](crate::contracts)
    /// </details>
    #[must_use]
    #[inline]
    pub fn stored_mut(&mut self) -> &mut [T] {
        self.items.as_mut_slice()
    }

    /// The view, and all items as they are stored, to be written by its places. Their count and the view are unchanged.
    ///
    /// The view of `a` starts at 1, and 5 at this place of the list makes it 7 5 9. The project's own.
    ///
    /// # Examples
    ///
    /// ```
    /// use ndarray_layout::{Ix1, LayoutError, OwnedArray, ShapeBuilder, unsigned};
    ///
    /// # fn main() -> Result<(), LayoutError> {
    /// let mut a = OwnedArray::from_shape_vec(Ix1(2).strides(Ix1(unsigned(-1)))?, vec![7, 8, 9])?;
    /// let (view, items) = a.parts_mut();
    /// items[view.start()] = 5;
    /// assert_eq!(a.stored(), [7, 5, 9]);
    /// # Ok(())
    /// # }
    /// ```
    ///
    /// <details><summary>Contract (proved)</summary>
    ///
    /// ```text
    /// ensures view: result.0.now ≡ self.old.view
    /// ensures items: result.1.now ≡ self.old.items
    /// ensures owned: IsOwned (length result.1.now) result.0.now
    /// ```
    /// [How to read it](crate::contracts)
    /// </details>
    #[must_use]
    #[inline]
    pub fn parts_mut(&mut self) -> (&Strided<D>, &mut [T]) {
        let items = self.items.as_mut_slice();
        (&self.view, items)
    }

    /// The list of all items as they are stored, spare ones too, and no copy of it. It ends the array.
    ///
    /// Of `a`: 7 8 9. ndarray's `into_raw_vec_and_offset`, whose offset the view's start is.
    ///
    /// # Examples
    ///
    /// ```
    /// use ndarray_layout::{Ix1, LayoutError, OwnedArray, ShapeBuilder, unsigned};
    ///
    /// # fn main() -> Result<(), LayoutError> {
    /// let a = OwnedArray::from_shape_vec(Ix1(2).strides(Ix1(unsigned(-1)))?, vec![7, 8, 9])?;
    /// assert_eq!(a.into_stored(), [7, 8, 9]);
    /// # Ok(())
    /// # }
    /// ```
    ///
    /// <details><summary>Contract (proved)</summary>
    ///
    /// ```text
    /// ensures result.items ≡ self.items
    /// ```
    /// [How to read it](crate::contracts)
    /// </details>
    #[must_use]
    #[inline]
    pub fn into_stored(self) -> Vec<T> {
        let OwnedArray { items, view: _ } = self;
        items
    }

    /// Replaces the item of an index, and returns whether it is an index of the shape; else the array is unchanged.
    ///
    /// `a.set(&1, 5)` makes it 5 8 9. ndarray's `get_mut`, with the write.
    ///
    /// # Examples
    ///
    /// ```
    /// use ndarray_layout::{Ix1, LayoutError, OwnedArray, ShapeBuilder, unsigned};
    ///
    /// # fn main() -> Result<(), LayoutError> {
    /// let mut a = OwnedArray::from_shape_vec(Ix1(2).strides(Ix1(unsigned(-1)))?, vec![7, 8, 9])?;
    /// assert!(a.set(&1, 5));
    /// assert!(!a.set(&2, 6));
    /// assert_eq!(a.stored(), [5, 8, 9]);
    /// # Ok(())
    /// # }
    /// ```
    ///
    /// <details><summary>Contract (proved)</summary>
    ///
    /// ```text
    /// ensures is_index: result ≡ is_index self.old.view.shape (I.index_list index.now)
    /// ensures written: self.new ≡ with_item self.old (I.index_list index.now) item
    /// ```
    /// [How to read it](crate::contracts)
    /// </details>
    #[inline]
    #[must_use]
    pub fn set<I: NdIndex<D>>(&mut self, index: &I, item: T) -> bool {
        match self.view.place(index) {
            Some(place) => {
                self.items[place] = item;
                true
            }
            None => false,
        }
    }

    /// The array with its items lent, for the calls of `ArrayView`.
    ///
    /// `(0)` of it is 8, as of `a`. ndarray's `view`.
    ///
    /// # Errors
    ///
    /// Out of memory; never where the type fixes the count of axes or there are at most 4.
    ///
    /// # Examples
    ///
    /// ```
    /// use ndarray_layout::{Ix1, LayoutError, OwnedArray, ShapeBuilder, unsigned};
    ///
    /// # fn main() -> Result<(), LayoutError> {
    /// let a = OwnedArray::from_shape_vec(Ix1(2).strides(Ix1(unsigned(-1)))?, vec![7, 8, 9])?;
    /// let view = a.try_view()?;
    /// assert_eq!((view.get(&0), view.get(&2)), (Some(&8), None));
    /// # Ok(())
    /// # }
    /// ```
    ///
    /// <details><summary>Contract (proved)</summary>
    ///
    /// ```text
    /// ensures array: IfOk result (λ a. a ≡ self.now)
    /// ensures memory: NeedsNoMemory D.NDIM (length self.now.view.shape) → IsOk result
    /// ```
    /// [How to read it](crate::contracts)
    /// </details>
    #[inline]
    pub fn try_view(&self) -> Result<ArrayView<'_, T, D>, AllocError> {
        let view = self.view.duplicate()?;
        Ok(ArrayView::new(view, self.items.as_slice()))
    }

    /// The array with its items lent to be written, for the calls of `ArrayViewMut`.
    ///
    /// 5 at (1) of that of `a` makes it 5 8 9. ndarray's `view_mut`.
    ///
    /// # Errors
    ///
    /// Out of memory; never where the type fixes the count of axes or there are at most 4.
    ///
    /// # Examples
    ///
    /// ```
    /// use ndarray_layout::{Ix1, LayoutError, OwnedArray, ShapeBuilder, unsigned};
    ///
    /// # fn main() -> Result<(), LayoutError> {
    /// let mut a = OwnedArray::from_shape_vec(Ix1(2).strides(Ix1(unsigned(-1)))?, vec![7, 8, 9])?;
    /// assert!(a.try_view_mut()?.set(&1, 5));
    /// assert_eq!(a.stored(), [5, 8, 9]);
    /// # Ok(())
    /// # }
    /// ```
    ///
    /// <details><summary>Contract (proved)</summary>
    ///
    /// ```text
    /// ensures array: IfOk result (λ a. array_of a ≡ self.old)
    /// ensures memory: NeedsNoMemory D.NDIM (length self.old.view.shape) → IsOk result
    /// ```
    /// [How to read it](crate::contracts)
    /// </details>
    #[inline]
    pub fn try_view_mut(&mut self) -> Result<ArrayViewMut<'_, T, D>, AllocError> {
        let view = self.view.duplicate()?;
        Ok(ArrayViewMut::new(view, self.items.as_mut_slice()))
    }
}

impl<T: Copy, D: Lengths> OwnedArray<T, D> {
    /// A copy of the item of an index; `None` where it is no index of the shape.
    ///
    /// `a.get(&0)` is 8, and `a.get(&2)` is `None`. ndarray's `get`.
    ///
    /// # Examples
    ///
    /// ```
    /// use ndarray_layout::{Ix1, LayoutError, OwnedArray, ShapeBuilder, unsigned};
    ///
    /// # fn main() -> Result<(), LayoutError> {
    /// let a = OwnedArray::from_shape_vec(Ix1(2).strides(Ix1(unsigned(-1)))?, vec![7, 8, 9])?;
    /// assert_eq!(a.get(&0), Some(8));
    /// assert_eq!(a.get(&2), None);
    /// # Ok(())
    /// # }
    /// ```
    ///
    /// <details><summary>Contract (proved)</summary>
    ///
    /// ```text
    /// ensures found: IsSome result ↔ IsTrue (is_index self.now.view.shape (I.index_list index.now))
    /// ensures item: result ≡ item_at self.now (I.index_list index.now)
    /// ```
    /// [How to read it](crate::contracts)
    /// </details>
    #[inline]
    #[must_use]
    pub fn get<I: NdIndex<D>>(&self, index: &I) -> Option<T> {
        match self.try_item(index) {
            Ok(item) => Some(*item),
            Err(_) => None,
        }
    }

    /// Copies of the items that a slice picks, in row-major order.
    ///
    /// Goes over the longest rows that the axes of the part allow (`Strided::joined_rows`): each of 16 neighbours or more is copied
    /// as a whole.
    ///
    /// `..;-1,1..` of `[2,3]` over 0 1 2 3 4 5: 4 5 1 2. The project's own.
    ///
    /// # Errors
    ///
    /// Those of `check_slice` on the shape, then out of memory; none of memory where the slice picks nothing and leaves at
    /// most 4 axes.
    ///
    /// # Examples
    ///
    /// ```
    /// use ndarray_layout::{ErrorKind, Ix2, LayoutError, OwnedArray, from_kind, s};
    ///
    /// # fn main() -> Result<(), LayoutError> {
    /// let table = OwnedArray::from_shape_vec(Ix2(2, 3), vec![0, 1, 2, 3, 4, 5])?;
    /// assert_eq!(table.items(&s![..;-1, 1..])?, [4, 5, 1, 2]);
    /// let past = table.items(&s![.., 1..4]);
    /// assert_eq!(past, Err(from_kind(ErrorKind::OutOfBounds).into()));
    /// # Ok(())
    /// # }
    /// ```
    ///
    /// <details><summary>Contract (proved)</summary>
    ///
    /// ```text
    /// ensures fault: shape_fault result ≡ argument_fault Strict self.now.view.shape (S.list slices.now)
    /// ensures items: IfOk result (λ v. map Some v.items ≡ map (item_at_place self.now.items)
    ///     (view_places RowMajor (slice_of Strict (S.list slices.now) self.now.view)))
    /// ensures memory: IsOfNone self.now.view.shape (S.list slices.now) → IsOk result
    /// ```
    /// [How to read it](crate::contracts)
    /// </details>
    #[inline]
    pub fn items<S: SliceElems>(&self, slices: &S) -> Result<Vec<T>, LayoutError> {
        if let Some(rows) = even_rows_of(&self.view, slices.elems())? {
            return Ok(read_rows(rows, self.items.as_slice())?);
        }
        let part = PickedView::new(&self.view, slices)?;
        Ok(part.read(self.items.as_slice())?)
    }

    /// Writes items at several slices at once, all of them or none.
    ///
    /// Each slice comes with the items for its indices, in row-major order. All other items are unchanged, spare ones too.
    /// A slice that picks nothing intersects no other, and an empty list of writes is no error.
    ///
    /// The slices are compared as `first_intersection_sorted` does, which takes memory for more than four: rows, columns and tiles, with
    /// steps or without, in any order take time in proportion to `k * log(k)` for `k` slices. If that memory fails, they are compared
    /// without it. Before the first write the parts that the slices pick are listed if there are several.
    ///
    /// `0,..` with 7 8 9 and `1,..;2` with 5 6 make 7 8 9 5 4 6 of `[2,3]` over 0 1 2 3 4 5; `0,..` and `..,0` share
    /// (0,0). ndarray's `multi_slice_move`, with the writes.
    ///
    /// # Errors
    ///
    /// That of `check_slice` on the shape for the first slice that doesn't fit; then `IncompatibleShape` where a list has
    /// more items or fewer than its slice picks; then `Unsupported` where two slices share an index; then out of memory,
    /// never where no list has an item, as where each slice picks nothing. The array is unchanged after an error.
    ///
    /// # Examples
    ///
    /// ```
    /// use ndarray_layout::{ErrorKind, Ix2, LayoutError, OwnedArray, from_kind, s};
    ///
    /// # fn main() -> Result<(), LayoutError> {
    /// let mut table = OwnedArray::from_shape_vec(Ix2(2, 3), vec![0, 1, 2, 3, 4, 5])?;
    /// let (row, column) = (s![0, ..].to_vec(), s![.., 0].to_vec());
    /// table.multi_set(&[(row.clone(), vec![7, 8, 9]), (s![1, ..;2].to_vec(), vec![5, 6])])?;
    /// let crossed = table.multi_set(&[(row, vec![0; 3]), (column, vec![0; 2])]);
    /// assert_eq!(crossed, Err(from_kind(ErrorKind::Unsupported).into()));
    /// assert_eq!(table.stored(), [7, 8, 9, 5, 4, 6]);
    /// # Ok(())
    /// # }
    /// ```
    ///
    /// <details><summary>Contract (proved)</summary>
    ///
    /// ```text
    /// ensures fault: IsFaultOfWrites self.old.view.shape (map write_of writes.now) (shape_fault result)
    /// ensures memory: shape_fault result ≡ None → HaveNoItems (map write_of writes.now) → IsOk result
    /// ensures unchanged: OnErr result (self.new ≡ self.old)
    /// ensures view: self.new.view ≡ self.old.view
    /// ensures count: length self.new.items ≡ length self.old.items
    /// ensures written: OnOk result (All (IsWritten self.old.view self.new.items) (map write_of writes.now))
    /// ensures others: OnOk result (KeepsOthers self.old.view (map write_of writes.now) self.old.items self.new.items)
    /// ```
    /// [How to read it](crate::contracts)
    /// </details>
    #[inline]
    pub fn multi_set(&mut self, writes: &[(Vec<SliceInfoElem>, Vec<T>)]) -> Result<(), LayoutError> {
        if let [write] = writes {
            if !write.1.is_empty() {
                return self.set_one(write);
            }
        }
        check_counts(&self.view, writes)?;
        check_apart(&self.view, writes)?;
        let parts = picked_views(&self.view, writes)?;
        write_all(self.items.as_mut_slice(), parts.as_slice());
        Ok(())
    }

    /// Writes items at one slice, as `multi_set` does with a list of this write, which takes no memory to list.
    ///
    /// <details><summary>Contract (proved)</summary>
    ///
    /// ```text
    /// ensures fault: shape_fault result ≡ counts_fault self.old.view.shape (write_of write.now ∷ [])
    /// ensures unchanged: OnErr result (self.new ≡ self.old)
    /// ensures view: self.new.view ≡ self.old.view
    /// ensures count: length self.new.items ≡ length self.old.items
    /// ensures written: OnOk result (HasWritten (write_places self.old.view (write_of write.now))
    ///     write.now.1.items self.old.items self.new.items)
    /// ```
    /// [How to read it](crate::contracts)
    /// </details>
    #[inline]
    fn set_one(&mut self, write: &(Vec<SliceInfoElem>, Vec<T>)) -> Result<(), LayoutError> {
        if let Some(rows) = even_rows_of(&self.view, write.0.as_slice())? {
            if rows.size() != write.1.len() {
                return Err(LayoutError::Shape(from_kind(ErrorKind::IncompatibleShape)));
            }
            write_rows(self.items.as_mut_slice(), rows, write.1.as_slice());
            return Ok(());
        }
        let part = picked_by_write(&self.view, write)?;
        part.write(self.items.as_mut_slice(), write.1.as_slice());
        Ok(())
    }
}
