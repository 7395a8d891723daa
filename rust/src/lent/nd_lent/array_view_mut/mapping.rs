// Made by `rust/erase` of `crates/nd_lent/src/array_view_mut/mapping.rt`: edit that.
//! Calls of a closure at all items of a part.

use crate::lent::nd_lent::array_view_mut::ArrayViewMut;
use crate::lent::nd_loops::{map_nearest, map_view};
use crate::memory::prelude::Vec;
use crate::ndarray_layout::Lengths;

impl<'a, T: Sized, D: Lengths> ArrayViewMut<'a, T, D> {
    /// Calls a closure at the item of each index, in row-major order, to change it in place. Other items are unchanged.
    ///
    /// Takes no memory. Goes over the longest rows that the axes allow (`Strided::joined_rows`).
    ///
    /// `|item| *item *= 2` at `[2]`, `[-1]` from 1 over 7 8 9: 14 16 9. ndarray's `map_inplace`.
    ///
    /// # Conditions
    ///
    /// The function may be called with any item of the array, whatever it was called with before. Where it panics, so
    /// does this call, and the items before keep what it wrote.
    ///
    /// # Examples
    ///
    /// ```
    /// use ndarray_layout::{ArrayViewMut, Ix2, LayoutError, s};
    ///
    /// # fn main() -> Result<(), LayoutError> {
    /// let mut items = [1, 2, 3, 4];
    /// let mut table = ArrayViewMut::from_shape(Ix2(2, 2), &mut items)?;
    /// let (mut row, mut item) = table.multi_slice_mut((s![0, ..], s![1, 1]))?;
    /// row.map_in_place(|item| *item *= 10);
    /// item.map_in_place(|item| *item += 1);
    /// assert_eq!(items, [10, 20, 3, 5]);
    /// # Ok(())
    /// # }
    /// ```
    ///
    /// <details><summary>Contract (proved)</summary>
    ///
    /// ```text
    /// requires CallableOnEachMut F.FnMut (row_major_items (array_of self.old)) f
    /// ensures ran: CallsMake (λ p x y q. CalledAtMut F.FnMut p x tt q y) f
    ///     (row_major_items (array_of self.old)) (row_major_items (array_of self.new))
    /// ensures mapped: (h : T → T) → ActsAsAtMut F.FnMut f h → HasItemsOf
    ///     (λ index. option_map h (item_at (array_of self.old) index))
    ///     (array_of self.old) (array_of self.new)
    /// ensures view: (array_of self.new).view ≡ (array_of self.old).view
    /// ensures spare: KeepsSpare (array_of self.old) (array_of self.new)
    /// ensures keeps_access: access_of self.new ≡ access_of self.old
    /// ```
    /// [How to read it](crate::contracts)
    /// </details>
    #[inline]
    pub fn map_in_place<F: FnMut(&mut T)>(&mut self, f: F) {
        map_view(&mut self.cells, &self.view, f);
    }

    /// Calls a closure at the item of each index, each once, to change it in place, in the order in which they lie: that in which
    /// ndarray goes. Other items are unchanged.
    ///
    /// It is `map_in_place` for a closure that needs no order. Takes no memory. With at most 6 axes it goes over the longest rows that
    /// the axes allow once they are turned and sorted (`Strided::nearest`), so that a part that is transposed, mirrored or column-major
    /// is one row as well, where its items lie side by side; with more axes as `map_in_place` does.
    ///
    /// `|item| *item *= 2` at `[2]`, `[-1]` from 1 over 7 8 9: at 7, then at 8, 14 16 9. ndarray's `map_inplace`.
    ///
    /// # Conditions
    ///
    /// The function may be called with any item of the array, whatever it was called with before. Where it panics, so
    /// does this call, and the items before keep what it wrote.
    ///
    /// # Examples
    ///
    /// ```
    /// use ndarray_layout::{ArrayViewMut, Ix2, LayoutError};
    ///
    /// # fn main() -> Result<(), LayoutError> {
    /// let (mut items, mut met) = ([1, 2, 3, 4], Vec::new());
    /// let mut part = ArrayViewMut::from_shape(Ix2(2, 2), &mut items)?.reversed_axes();
    /// part.map_in_place_nearest(|item| met.push(*item));
    /// assert_eq!(met, [1, 2, 3, 4]);
    /// # Ok(())
    /// # }
    /// ```
    ///
    /// <details><summary>Contract (proved)</summary>
    ///
    /// ```text
    /// requires InAnyOrder (λ items. CallableOnEachMut F.FnMut items f) (row_major_items (array_of self.old))
    /// ensures ran: CallsMakeArrayInSomeOrder (λ p x y q. CalledAtMut F.FnMut p x tt q y) f
    ///     (array_of self.old) (array_of self.new)
    /// ensures mapped: (h : T → T) → ActsAsAtMut F.FnMut f h → HasItemsOf
    ///     (λ index. option_map h (item_at (array_of self.old) index))
    ///     (array_of self.old) (array_of self.new)
    /// ensures view: (array_of self.new).view ≡ (array_of self.old).view
    /// ensures spare: KeepsSpare (array_of self.old) (array_of self.new)
    /// ensures keeps_access: access_of self.new ≡ access_of self.old
    /// ```
    /// [How to read it](crate::contracts)
    /// </details>
    #[inline]
    pub fn map_in_place_nearest<F: FnMut(&mut T)>(&mut self, f: F) {
        map_nearest(&mut self.cells, &self.view, 0, f);
    }
}
