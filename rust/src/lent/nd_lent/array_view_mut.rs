// Made by `rust/erase` of `crates/nd_lent/src/array_view_mut.rt`: edit that.
//! A part of an array: a view, and the right to its items alone.

mod making;
mod reading;
mod rows;
mod mapping;
mod writing;
mod steps;
mod axes;
mod axis_chunks;
mod axis_iter;
mod borrowing;
mod items;
mod mapping_into;
mod memory_order;
mod pairs;
mod parts;
mod slice_parts;
mod slices;
mod tiles;
mod triples;
mod zipping;

use crate::lent::nd_access::Cells;
use crate::ndarray_layout::{Axis, LayoutError, Lengths, NdIndex, Order, Strided};
pub use axis_chunks::AxisChunksIterMut;
pub use axis_iter::AxisIterMut;
use core::mem::replace;
pub use parts::Parts;
pub use rows::LanesMut;
pub use slice_parts::SliceParts;
pub use tiles::TilesMut;

/// A part of an array, to be read and written beside other parts of the same items: a view, and the right to the items at its
/// places, at the price of a pointer. Nothing else of the items is read or written.
///
/// The rows of `[2,2]` over 7 8 9 10: one part has 7 8, the other 9 10. The project's own.
pub struct ArrayViewMut<'a, T, D: Lengths> {
    pub(in crate::lent::nd_lent) cells: Cells<'a, T>,
    pub(in crate::lent::nd_lent) view: Strided<D>,
}

impl<'a, T: Sized, D: Lengths> ArrayViewMut<'a, T, D> {
    /// The part of all indices of a view. The caller ensures that each index has a place to itself, which has a mark.
    ///
    /// <details><summary>Contract (proved)</summary>
    ///
    /// ```text
    /// ensures items: (array_of result).items ≡ cells.entry.items
    /// ensures view: (array_of result).view ≡ view
    /// ```
    /// [How to read it](crate::contracts)
    /// </details>
    #[inline]
    fn of_cells(cells: Cells<'a, T>, view: Strided<D>) -> Self {
        ArrayViewMut { cells, view }
    }

    /// The part of all indices of a view, taken from a right to more items; that to the others stays.
    ///
    /// # Conditions
    ///
    /// The caller ensures that each index has a place to itself, which has a mark. Otherwise the behaviour is
    /// undefined.
    ///
    /// <details><summary>Contract (proved)</summary>
    ///
    /// ```text
    /// requires IsPart cells.old.marks view
    /// ensures array: array_of result ≡ record { items = cells.old.items; view = view }
    /// ensures items: cells.new.items ≡ cells.old.items
    /// ensures left: cells.new.marks ≡ without (marks_of (length cells.old.marks) view) cells.old.marks
    /// ```
    /// [How to read it](crate::contracts)
    /// </details>
    #[inline]
    fn take_from(cells: &mut Cells<'a, T>, view: Strided<D>) -> Self {
        let taken = cells.take_view(&view);
        ArrayViewMut { cells: taken, view }
    }

    /// The view, by which each index of the part has its place among all items; no two indices alias. The project's own.
    ///
    /// # Examples
    ///
    /// ```
    /// use ndarray_layout::{ArrayViewMut, Ix2, LayoutError};
    ///
    /// # fn main() -> Result<(), LayoutError> {
    /// let mut items = [7, 8, 9, 10];
    /// let part = ArrayViewMut::from_shape(Ix2(2, 2), &mut items)?.reversed_axes();
    /// assert_eq!((part.strided().start(), part.strided().strides()), (0, &Ix2(1, 2)));
    /// # Ok(())
    /// # }
    /// ```
    ///
    /// <details><summary>Contract (proved)</summary>
    ///
    /// ```text
    /// ensures view: result.now ≡ (array_of self.now).view
    /// ensures owned: IsOwned (length (array_of self.now).items) (array_of self.now).view
    /// ensures part: IsPart (access_of self.now).marks (array_of self.now).view
    /// ```
    /// [How to read it](crate::contracts)
    /// </details>
    #[inline]
    #[must_use]
    pub fn strided(&self) -> &Strided<D> {
        // (each mark has an item: for the proof alone)
        let _shared = self.cells.shared();
        &self.view
    }

    /// The shape. ndarray's `raw_dim`, which copies it.
    ///
    /// # Examples
    ///
    /// ```
    /// use ndarray_layout::{Ix2, LayoutError, ArrayViewMut};
    ///
    /// # fn main() -> Result<(), LayoutError> {
    /// let mut items = [0, 1, 2, 3, 4, 5];
    /// assert_eq!(ArrayViewMut::from_shape(Ix2(2, 3), &mut items)?.dim(), &Ix2(2, 3));
    /// # Ok(())
    /// # }
    /// ```
    ///
    /// <details><summary>Contract (proved)</summary>
    ///
    /// ```text
    /// ensures list: D.list result.now ≡ (array_of self.now).view.shape
    /// ```
    /// [How to read it](crate::contracts)
    /// </details>
    #[must_use]
    #[inline]
    pub fn dim(&self) -> &D {
        self.view.dim()
    }

    /// How many indices the shape has.
    ///
    /// `[2]`, `[-1]` from 1 over 7 8 9: 2. ndarray's `len`.
    ///
    /// # Examples
    ///
    /// ```
    /// use ndarray_layout::{Ix1, LayoutError, ArrayViewMut, ShapeBuilder, unsigned};
    ///
    /// # fn main() -> Result<(), LayoutError> {
    /// let mut items = [7, 8, 9];
    /// assert_eq!(ArrayViewMut::from_shape(Ix1(2).strides(Ix1(unsigned(-1)))?, &mut items)?.len(), 2);
    /// # Ok(())
    /// # }
    /// ```
    ///
    /// <details><summary>Contract (proved)</summary>
    ///
    /// ```text
    /// ensures result ≡ size (array_of self.now).view.shape
    /// ```
    /// [How to read it](crate::contracts)
    /// </details>
    #[must_use]
    #[inline]
    pub fn len(&self) -> usize {
        self.view.len()
    }

    /// Whether the shape has no index. ndarray's `is_empty`.
    ///
    /// # Examples
    ///
    /// ```
    /// use ndarray_layout::{Ix2, LayoutError, ArrayViewMut};
    ///
    /// # fn main() -> Result<(), LayoutError> {
    /// let mut items = [7, 8, 9];
    /// assert!(!ArrayViewMut::from_shape(Ix2(1, 3), &mut items)?.is_empty());
    /// assert!(ArrayViewMut::from_shape(Ix2(0, 3), &mut items)?.is_empty());
    /// # Ok(())
    /// # }
    /// ```
    ///
    /// <details><summary>Contract (proved)</summary>
    ///
    /// ```text
    /// ensures IsTrue result ↔ (size (array_of self.now).view.shape ≡ 0)
    /// ```
    /// [How to read it](crate::contracts)
    /// </details>
    #[must_use]
    #[inline]
    pub fn is_empty(&self) -> bool {
        self.view.is_empty()
    }

    /// The item of an index; `None` where it is no index of the shape.
    ///
    /// `[2]`, `[-1]` from 1 over 7 8 9: (0) is 8, and (2) is `None`. ndarray's `get`.
    ///
    /// # Examples
    ///
    /// ```
    /// use ndarray_layout::{ArrayViewMut, Ix2, LayoutError};
    ///
    /// # fn main() -> Result<(), LayoutError> {
    /// let mut items = [7, 8, 9, 10];
    /// let part = ArrayViewMut::from_shape(Ix2(2, 2), &mut items)?;
    /// assert_eq!((part.get(&(1, 0)), part.get(&(2, 0))), (Some(&9), None));
    /// # Ok(())
    /// # }
    /// ```
    ///
    /// <details><summary>Contract (proved)</summary>
    ///
    /// ```text
    /// ensures found: IsSome result ↔ IsTrue (is_index (array_of self.now).view.shape (I.index_list index.now))
    /// ensures item: option_copied result ≡ item_at (array_of self.now) (I.index_list index.now)
    /// ```
    /// [How to read it](crate::contracts)
    /// </details>
    #[inline]
    #[must_use]
    pub fn get<I: NdIndex<D>>(&self, index: &I) -> Option<&T> {
        let place = self.view.place(index)?;
        Some(self.cells.get(place))
    }

    /// The item of an index, to be written; `None` where it is no index of the shape.
    ///
    /// `[2]`, `[-1]` from 1 over 7 8 9: (0) is 8; 5 written there makes the items 7 5 9. ndarray's `get_mut`.
    ///
    /// # Examples
    ///
    /// ```
    /// use ndarray_layout::{ArrayViewMut, Ix2, LayoutError};
    ///
    /// # fn main() -> Result<(), LayoutError> {
    /// let mut items = [1, 2, 3, 4];
    /// let mut part = ArrayViewMut::from_shape(Ix2(2, 2), &mut items)?.reversed_axes();
    /// if let Some(item) = part.get_mut(&(0, 1)) {
    ///     *item += 10;
    /// }
    /// assert_eq!(part.get_mut(&(0, 2)), None);
    /// assert_eq!(items, [1, 2, 13, 4]);
    /// # Ok(())
    /// # }
    /// ```
    ///
    /// <details><summary>Contract (proved)</summary>
    ///
    /// ```text
    /// ensures found: IsSome result ↔ IsTrue (is_index (array_of self.old).view.shape (I.index_list index.now))
    /// ensures item: IfSome result (λ item. item_at (array_of self.old) (I.index_list index.now) ≡ Some item.now)
    /// ```
    /// [How to read it](crate::contracts)
    /// </details>
    #[inline]
    #[must_use]
    pub fn get_mut<I: NdIndex<D>>(&mut self, index: &I) -> Option<&mut T> {
        match self.view.place(index) {
            Some(place) => Some(self.item_mut(place)),
            None => None,
        }
    }

    /// Replaces the item of an index, and returns whether it is an index of the shape; else the part is unchanged.
    ///
    /// `[2]`, `[-1]` from 1 over 7 8 9: 5 at (1) makes the items 5 8 9. ndarray's `get_mut`, with the write.
    ///
    /// # Examples
    ///
    /// ```
    /// use ndarray_layout::{ArrayViewMut, Ix2, LayoutError};
    ///
    /// # fn main() -> Result<(), LayoutError> {
    /// let mut items = [7, 8, 9, 10];
    /// let mut part = ArrayViewMut::from_shape(Ix2(2, 2), &mut items)?;
    /// assert!(part.set(&(0, 1), 0));
    /// assert!(!part.set(&(0, 2), 0));
    /// assert_eq!(items, [7, 0, 9, 10]);
    /// # Ok(())
    /// # }
    /// ```
    ///
    /// <details><summary>Contract (proved)</summary>
    ///
    /// ```text
    /// ensures is_index: result ≡ is_index (array_of self.old).view.shape (I.index_list index.now)
    /// ensures written: array_of self.new ≡ with_item (array_of self.old) (I.index_list index.now) item
    /// ensures keeps_access: access_of self.new ≡ access_of self.old
    /// ```
    /// [How to read it](crate::contracts)
    /// </details>
    #[inline]
    #[must_use]
    pub fn set<I: NdIndex<D>>(&mut self, index: &I, item: T) -> bool {
        match self.view.place(index) {
            Some(place) => {
                *self.item_mut(place) = item;
                true
            }
            None => false,
        }
    }

    /// Replaces the item of an index by another one, and returns the one that was there; the given one comes back as the error
    /// where it is no index of the shape, and the part is unchanged. So no item is dropped.
    ///
    /// `[2]`, `[-1]` from 1 over 7 8 9: 5 at (1) returns 7 and makes the items 5 8 9; at (2) `Err(5)`. ndarray's `get_mut`, with
    /// `std::mem::replace`.
    ///
    /// # Examples
    ///
    /// ```
    /// use ndarray_layout::{ArrayViewMut, Ix2, LayoutError};
    ///
    /// # fn main() -> Result<(), LayoutError> {
    /// let mut items = ["a", "b", "c", "d"];
    /// let mut part = ArrayViewMut::from_shape(Ix2(2, 2), &mut items)?;
    /// assert_eq!(part.replace(&(0, 1), "e"), Ok("b"));
    /// assert_eq!(part.replace(&(0, 2), "f"), Err("f"));
    /// assert_eq!(items, ["a", "e", "c", "d"]);
    /// # Ok(())
    /// # }
    /// ```
    ///
    /// <details><summary>Contract (proved)</summary>
    ///
    /// ```text
    /// ensures found: IsOk result ↔ IsTrue (is_index (array_of self.old).view.shape (I.index_list index.now))
    /// ensures returned: IfOk result (λ old. item_at (array_of self.old) (I.index_list index.now) ≡ Some old)
    /// ensures handed_back: IfErr result (λ given. given ≡ item)
    /// ensures written: array_of self.new ≡ with_item (array_of self.old) (I.index_list index.now) item
    /// ensures keeps_access: access_of self.new ≡ access_of self.old
    /// ```
    /// [How to read it](crate::contracts)
    /// </details>
    #[inline]
    pub fn replace<I: NdIndex<D>>(&mut self, index: &I, item: T) -> Result<T, T> {
        match self.view.place(index) {
            Some(place) => Ok(replace(self.item_mut(place), item)),
            None => Err(item),
        }
    }

    /// The items as a slice, for as long as the whole is lent, where their places follow one another in row-major order; else the
    /// part. That the items keep what is written is tested, and in no clause.
    ///
    /// `[2]`, `[1]` from 1 over 7 8 9: 8 9. ndarray's `into_slice`.
    ///
    /// # Examples
    ///
    /// ```
    /// use ndarray_layout::{ArrayViewMut, Axis, Ix2, LayoutError};
    ///
    /// # fn main() -> Result<(), LayoutError> {
    /// let mut items = [7, 8, 9, 10];
    /// let part = ArrayViewMut::from_shape(Ix2(2, 2), &mut items)?;
    /// let (first, second) = part.split_at(Axis(0), 1)?;
    /// assert_eq!(first.into_slice().ok(), Some(&mut [7, 8][..]));
    /// let (column, _) = second.split_at(Axis(1), 1)?;
    /// assert_eq!(column.reversed_axes().into_slice().ok(), Some(&mut [9][..]));
    /// let turned = ArrayViewMut::from_shape(Ix2(2, 2), &mut items)?.reversed_axes();
    /// assert_eq!(turned.into_slice().map_err(|part| part.get(&(0, 1)).copied()), Err(Some(9)));
    /// # Ok(())
    /// # }
    /// ```
    ///
    /// <details><summary>Contract (proved)</summary>
    ///
    /// ```text
    /// ensures found: IsOk result ↔ IsStretch RowMajor (array_of self.entry).view
    /// ensures items: IfOk result (λ items. map Some items.now ≡
    ///     map (item_at_place (array_of self.entry).items)
    ///     (view_places RowMajor (array_of self.entry).view))
    /// ensures kept: IfErr result (λ part. array_of part ≡ array_of self.entry)
    /// ensures keeps_access: IfErr result (λ part. access_of part ≡ access_of self.entry)
    /// ```
    /// [How to read it](crate::contracts)
    /// </details>
    #[inline]
    pub fn into_slice(self) -> Result<&'a mut [T], Self> {
        let ArrayViewMut { cells, view } = self;
        match view.stretch(Order::RowMajor) {
            Some(places) => {
                let mut cells = cells;
                Ok(cells.take_slice(places.start, places.end - places.start))
            }
            None => Err(ArrayViewMut { cells, view }),
        }
    }

    /// The parts of the coordinates below `index` on an axis, and of those from `index` on; both may be used at once, and in
    /// threads, whatever the strides are. That the items keep what is written is tested, and in no clause.
    ///
    /// Columns of `[2,2]`, `[2,1]` from 0 over 7 8 9 10, at 1: one part has 7 9, the other 8 10. ndarray's `split_at`.
    ///
    /// # Errors
    ///
    /// Those of `Strided::split_at`: `OutOfBounds` where there is no such axis or the index is greater than its length; then out
    /// of memory, never where the type fixes the count of axes or there are at most 4. The part is gone then.
    ///
    /// # Examples
    ///
    /// ```
    /// use ndarray_layout::{ArrayViewMut, Axis, ErrorKind, Ix2, LayoutError, from_kind};
    ///
    /// # fn main() -> Result<(), LayoutError> {
    /// let mut items = [1, 2, 3, 4, 5, 6];
    /// let table = ArrayViewMut::from_shape(Ix2(2, 3), &mut items)?;
    /// let (left, mut right) = table.split_at(Axis(1), 2)?;
    /// let (mut above, below) = left.split_at(Axis(0), 1)?;
    /// above.fill(0);
    /// right[(1, 0)] = 9;
    /// assert_eq!(below[(0, 1)], 5);
    /// assert_eq!(below.split_at(Axis(0), 2).err(), Some(from_kind(ErrorKind::OutOfBounds).into()));
    /// assert_eq!(items, [0, 0, 3, 4, 5, 9]);
    /// # Ok(())
    /// # }
    /// ```
    ///
    /// <details><summary>Contract (proved)</summary>
    ///
    /// ```text
    /// ensures fault: shape_fault result ≡ split_fault (array_of self.entry).view.shape axis.0 index
    /// ensures memory: shape_fault result ≡ None →
    ///     NeedsNoMemory D.NDIM (length (array_of self.entry).view.shape) → IsOk result
    /// ensures items: IfOk result (λ (first, second).
    ///     ((array_of first).items ≡ (array_of self.entry).items)
    ///     × ((array_of second).items ≡ (array_of self.entry).items))
    /// ensures first: IfOk result (λ (first, second).
    ///     (array_of first).view ≡ first_part_of axis.0 index (array_of self.entry).view)
    /// ensures second: IfOk result (λ (first, second).
    ///     (array_of second).view ≡ second_part_of axis.0 index (array_of self.entry).view)
    /// ensures first_items: IfOk result (λ (first, second).
    ///     ShowsPartOf (λ coordinates. coordinates) (array_of self.entry) (array_of first))
    /// ensures second_items: IfOk result (λ (first, second).
    ///     ShowsPartOf (second_source axis.0 index) (array_of self.entry) (array_of second))
    /// ```
    /// [How to read it](crate::contracts)
    /// </details>
    #[inline]
    pub fn split_at(self, axis: Axis, index: usize) -> Result<(Self, Self), LayoutError> {
        let ArrayViewMut { cells, view } = self;
        let (first, second) = view.split_at(axis, index)?;
        let mut cells = cells;
        let one = cells.take_view(&first);
        Ok((ArrayViewMut { cells: one, view: first }, ArrayViewMut { cells, view: second }))
    }
}
