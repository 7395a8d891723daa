// Made by `rust/erase` of `crates/nd_owned/src/owned/taking.rt`: edit that.
//! The items of an array that owns them, moved out of it.

use crate::lent::nd_owned::owned::OwnedArray;
use crate::memory::AllocError;
use crate::memory::prelude::{FallibleVec, Vec};
use crate::ndarray_layout::{Lengths, Order, Places, Strided};
use core::ops::Range;

impl<T: Sized, D: Lengths> OwnedArray<T, D> {
    /// The list of the items of all indices, in row-major order. Spare items are dropped, and it ends the array.
    ///
    /// Where the items lie in this order one after another they stay in their list. Else each is moved to a new one.
    ///
    /// Of `a`: 8 7. ndarray's `into_iter`.
    ///
    /// # Errors
    ///
    /// Out of memory; never where the items lie in row-major order one after another.
    ///
    /// # Examples
    ///
    /// ```
    /// use ndarray_layout::{Ix1, LayoutError, OwnedArray, ShapeBuilder, unsigned};
    ///
    /// # fn main() -> Result<(), LayoutError> {
    /// let a = OwnedArray::from_shape_vec(Ix1(2).strides(Ix1(unsigned(-1)))?, vec![7, 8, 9])?;
    /// assert_eq!(a.into_list()?, [8, 7]);
    /// # Ok(())
    /// # }
    /// ```
    ///
    /// <details><summary>Contract (proved)</summary>
    ///
    /// ```text
    /// ensures items: IfOk result (λ list. map Some list.items ≡
    ///     map (item_at_place self.items) (view_places RowMajor self.view))
    /// ensures memory: IsStretch RowMajor self.view → IsOk result
    /// ```
    /// [How to read it](crate::contracts)
    /// </details>
    #[inline]
    pub fn into_list(self) -> Result<Vec<T>, AllocError> {
        let OwnedArray { items, view } = self;
        match view.stretch(Order::RowMajor) {
            Some(places) => Ok(items_between(items, places)),
            None => items_in_order(items, &view),
        }
    }
}

/// The items of a range; all others are dropped.
///
/// <details><summary>Contract (proved)</summary>
///
/// ```text
/// requires from: places.start ≤ places.end
/// requires to: places.end ≤ vec_len items
/// ensures result.items ≡ take (places.end - places.start) (drop places.start items.items)
/// ```
/// [How to read it](crate::contracts)
/// </details>
#[inline]
fn items_between<T: Sized>(mut items: Vec<T>, places: Range<usize>) -> Vec<T> {
    items.truncate(places.end);
    drop(items.drain(..places.start));
    items
}

/// The items at the places of a view, in row-major order; all others are dropped.
///
/// <details><summary>Contract (proved)</summary>
///
/// ```text
/// requires IsOwned (length items.items) view.now
/// ensures IfOk result (λ list. map Some list.items ≡ map (item_at_place items.items) (view_places RowMajor view.now))
/// ```
/// [How to read it](crate::contracts)
/// </details>
#[inline]
fn items_in_order<T: Sized, D: Lengths>(items: Vec<T>, view: &Strided<D>) -> Result<Vec<T>, AllocError> {
    let taken = Vec::fallible_with_capacity(view.len())?;
    let mut left = all_left(items)?;
    let places = view.iter_places(Order::RowMajor);
    let list = take_items(taken, left.as_mut_slice(), places);
    // Before the result is made: if a spare item panics as it is dropped, the list is dropped too.
    drop(left);
    Ok(list)
}

/// The items of a list, of which each may be taken.
///
/// <details><summary>Contract (proved)</summary>
///
/// ```text
/// ensures IfOk result (λ left. left.items ≡ map Some items.items)
/// ```
/// [How to read it](crate::contracts)
/// </details>
#[inline]
fn all_left<T: Sized>(items: Vec<T>) -> Result<Vec<Option<T>>, AllocError> {
    let mut left = Vec::fallible_with_capacity(items.len())?;
    for item in items {
        left.push_reserved(Some(item));
    }
    Ok(left)
}

/// Moves the items at places, of which none comes twice, to the end of a list with room for them.
///
/// <details><summary>Contract (proved)</summary>
///
/// ```text
/// requires left: All (λ place. IsSome (left_at left.old place)) places
/// requires distinct: AllPairs (λ one other. one ≢ other) places
/// requires room: vec_len taken + length places ≤ vec_capacity taken
/// ensures map Some result.items ≡ map Some taken.items ++ map (left_at left.old) places.entry
/// ```
/// [How to read it](crate::contracts)
/// </details>
#[inline]
fn take_items<T: Sized>(mut taken: Vec<T>, left: &mut [Option<T>], places: Places<'_>) -> Vec<T> {
    for place in places {
        taken = take_item(taken, left, place);
    }
    taken
}

/// Moves the item at a place to the end of a list with room for it. The list is passed by value: through a reference its length would be
/// written at each item.
///
/// <details><summary>Contract (proved)</summary>
///
/// ```text
/// requires left: IsSome (left_at left.old (pos place))
/// requires room: vec_len taken < vec_capacity taken
/// ensures items: map Some result.items ≡ map Some taken.items ++ left_at left.old (pos place) ∷ []
/// ensures left: left.new ≡ set left.old place None
/// ensures len: vec_len result ≡ vec_len taken + 1
/// ensures capacity: vec_capacity taken ≤ vec_capacity result
/// ```
/// [How to read it](crate::contracts)
/// </details>
#[inline(always)]
fn take_item<T: Sized>(mut taken: Vec<T>, left: &mut [Option<T>], place: usize) -> Vec<T> {
    if let Some(item) = left[place].take() {
        taken.push_reserved(item);
    }
    taken
}
