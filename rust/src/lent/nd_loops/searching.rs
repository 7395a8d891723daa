// Made by `rust/erase` of `crates/nd_loops/src/searching.rt`: edit that.
//! The first item at which a function returns what is looked for.

use crate::lent::nd_access::LentRow;

/// Calls a function at one item of a slice after another, up to the first at which it returns what is looked for: whether there
/// is one. Hands back the function.
///
/// <details><summary>Contract (proved)</summary>
///
/// ```text
/// requires CallableWhile lends F.FnMut (not wanted) (map Some items.now) f
/// ensures HasSearched F.FnMut wanted f (map Some items.now) result.0 result.1
/// ```
/// [How to read it](crate::contracts)
/// </details>
#[inline(always)]
fn search_slice<T, F: FnMut(&T) -> bool>(items: &[T], wanted: bool, mut f: F) -> (bool, F) {
    for item in items {
        if f(item) == wanted {
            return (true, f);
        }
    }
    (false, f)
}

/// `search_slice` at the items of a row, place by place.
///
/// <details><summary>Contract (proved)</summary>
///
/// ```text
/// requires CallableWhile lends F.FnMut (not wanted) (row_items row.now) f
/// ensures HasSearched F.FnMut wanted f (row_items row.now) result.0 result.1
/// ```
/// [How to read it](crate::contracts)
/// </details>
#[inline(always)]
fn search_places<T, F: FnMut(&T) -> bool>(row: &LentRow<'_, T>, wanted: bool, mut f: F) -> (bool, F) {
    for coordinate in 0..row.len() {
        let item = row.item(coordinate);
        if f(item) == wanted {
            return (true, f);
        }
    }
    (false, f)
}

/// `search_slice` at the items of a row.
///
/// <details><summary>Contract (proved)</summary>
///
/// ```text
/// requires CallableWhile lends F.FnMut (not wanted) (row_items row.now) f
/// ensures HasSearched F.FnMut wanted f (row_items row.now) result.0 result.1
/// ```
/// [How to read it](crate::contracts)
/// </details>
#[inline(always)]
pub fn search_row<T, F: FnMut(&T) -> bool>(row: &LentRow<'_, T>, wanted: bool, f: F) -> (bool, F) {
    match row.as_slice() {
        Some(items) => search_slice(items, wanted, f),
        None => search_places(row, wanted, f),
    }
}
