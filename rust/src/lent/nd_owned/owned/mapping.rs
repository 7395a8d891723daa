// Made by `rust/erase` of `crates/nd_owned/src/owned/mapping.rt`: edit that.
//! Calls of a closure at items of an array that owns them.

use crate::lent::nd_lent::ArrayViewMut;
use crate::lent::nd_owned::owned::OwnedArray;
use crate::ndarray_layout::{Fit, IxDyn, LayoutError, Lengths, SliceElems, Strided};

/// Calls a closure at the item of each index of a view, in row-major order.
///
/// <details><summary>Contract (proved)</summary>
///
/// ```text
/// requires owned: IsOwned (length stored.old) view
/// requires callable: CallableOnEachMut F.FnMut (row_major_items (record { items = stored.old; view = view })) f
/// ensures ran: CallsMake (λ p x y q. CalledAtMut F.FnMut p x tt q y) f
///     (row_major_items (record { items = stored.old; view = view }))
///     (row_major_items (record { items = stored.new; view = view }))
/// ensures mapped: (h : T → T) → ActsAsAtMut F.FnMut f h → HasItemsOf
///     (λ index. option_map h (item_at (record { items = stored.old; view = view }) index))
///     (record { items = stored.old; view = view }) (record { items = stored.new; view = view })
/// ensures spare: KeepsSpare (record { items = stored.old; view = view }) (record { items = stored.new; view = view })
/// ```
/// [How to read it](crate::contracts)
/// </details>
#[inline]
fn map_view<T: Sized, D: Lengths, F: FnMut(&mut T)>(stored: &mut [T], view: Strided<D>, f: F) {
    let mut part = ArrayViewMut::new(view, stored);
    part.map_in_place(f);
}

impl<T: Sized, D: Lengths> OwnedArray<T, D> {
    /// Calls a closure at each item that a slice picks, in row-major order, to change it in place. All other items are
    /// unchanged, spare ones too.
    ///
    /// Takes for each index of the part the time of its place (`Strided::iter_places`) and of the call.
    ///
    /// `|item| *item = 9` at `1..` of `[3]` over 5 6 7: 5 9 9. ndarray's `slice_mut`, with `map_inplace`.
    ///
    /// # Errors
    ///
    /// Those of `check_slice` on the shape, then out of memory, never where the slice leaves at most 4 axes. The array is
    /// unchanged after an error, and the closure isn't called.
    ///
    /// # Conditions
    ///
    /// The function may be called with any item of the array, whatever it was called with before. Where it panics, so
    /// does this call, and the items before keep what it wrote.
    ///
    /// # Examples
    ///
    /// ```
    /// use ndarray_layout::{ErrorKind, Ix1, LayoutError, OwnedArray, from_kind, s};
    ///
    /// # fn main() -> Result<(), LayoutError> {
    /// let mut array = OwnedArray::from_shape_vec(Ix1(3), vec![5, 6, 7])?;
    /// array.map_in_place(&s![1..], |item| *item = 9)?;
    /// let past = array.map_in_place(&s![1..4], |item| *item = 0);
    /// assert_eq!(past, Err(from_kind(ErrorKind::OutOfBounds).into()));
    /// assert_eq!(array.stored(), [5, 9, 9]);
    /// # Ok(())
    /// # }
    /// ```
    ///
    /// <details><summary>Contract (proved)</summary>
    ///
    /// ```text
    /// requires argument_fault Strict self.old.view.shape (S.list slices.now) ≡ None →
    ///     CallableOnEachMut F.FnMut (row_major_items (part_of (S.list slices.now) self.old)) f
    /// ensures fault: shape_fault result ≡ argument_fault Strict self.old.view.shape (S.list slices.now)
    /// ensures memory: shape_fault result ≡ None → NeedsNoMemory None (out_count (S.list slices.now)) → IsOk result
    /// ensures unchanged: OnErr result (self.new ≡ self.old)
    /// ensures view: self.new.view ≡ self.old.view
    /// ensures count: length self.new.items ≡ length self.old.items
    /// ensures ran: OnOk result (CallsMake (λ p x y q. CalledAtMut F.FnMut p x tt q y) f
    ///     (row_major_items (part_of (S.list slices.now) self.old))
    ///     (row_major_items (part_of (S.list slices.now) self.new)))
    /// ensures mapped: OnOk result ((h : T → T) → ActsAsAtMut F.FnMut f h → HasItemsOf
    ///     (λ index. option_map h (item_at (part_of (S.list slices.now) self.old) index))
    ///     (part_of (S.list slices.now) self.old) (part_of (S.list slices.now) self.new))
    /// ensures spare: OnOk result (KeepsSpare
    ///     (part_of (S.list slices.now) self.old) (part_of (S.list slices.now) self.new))
    /// ```
    /// [How to read it](crate::contracts)
    /// </details>
    #[inline]
    pub fn map_in_place<S: SliceElems, F: FnMut(&mut T)>(&mut self, slices: &S, f: F) -> Result<(), LayoutError> {
        let part: Strided<IxDyn> = self.view.slice(slices, Fit::Strict)?;
        map_view(self.items.as_mut_slice(), part, f);
        Ok(())
    }
}
