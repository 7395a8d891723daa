// Made by `rust/erase` of `crates/nd_items/src/copying.rt`: edit that.
//! New lists of the items of an array.

use crate::lent::nd_access::{LentRow, RowByRow};
use crate::lent::nd_items::iterating::Iter;
use crate::memory::AllocError;
use crate::memory::prelude::{FallibleVec, Vec};

/// Appends copies of the items of a row to a list with room for them, item by item.
///
/// <details><summary>Contract (proved)</summary>
///
/// ```text
/// requires room: vec_len list + row.now.row.len ≤ vec_capacity list
/// ensures items: map Some result.items ≡ map Some list.items ++ row_items row.now
/// ensures len: vec_len result ≡ vec_len list + row.now.row.len
/// ensures capacity: vec_capacity result ≡ vec_capacity list
/// ```
/// [How to read it](crate::contracts)
/// </details>
#[inline(never)]
fn copy_apart<T: Copy>(list: Vec<T>, row: &LentRow<'_, T>) -> Vec<T> {
    let mut made = list;
    // (the room is enough: so rustc sees that no item needs a check of it)
    let end = made.capacity().min(made.len() + row.len());
    let mut coordinate = 0;
    while made.len() < end {
        made.push_reserved(*row.item(coordinate));
        coordinate += 1;
    }
    made
}

impl<T: Copy> Iter<'_, T> {
    /// Copies of the items that are left, in their order, as a list. It is allocated first, at once, and filled row by row.
    ///
    /// Errors: out of memory; never where none is left.
    ///
    /// <details><summary>Contract (proved)</summary>
    ///
    /// ```text
    /// ensures items: IfOk result (λ list. map Some list.items ≡ self.entry)
    /// ensures memory: self.entry ≡ [] → IsOk result
    /// ```
    /// [How to read it](crate::contracts)
    /// </details>
    #[inline]
    pub(crate) fn into_list(self) -> Result<Vec<T>, AllocError> {
        let mut items = self;
        let mut list = Vec::fallible_with_capacity(items.len())?;
        while let Some(row) = items.next_row() {
            match row.as_slice() {
                Some(slice) => list.fallible_extend_from_slice(slice)?,
                None => list = copy_apart(list, &row),
            }
        }
        Ok(list)
    }
}
