// Made by `rust/erase` of `crates/nd_loops/src/folding.rt`: edit that.
//! A function that is called at each item of an array in turn, row by row.

use crate::lent::nd_access::{LentRow, LentRows, LentRowsOf, RowByRow};
use crate::lent::nd_loops::few::lent_by_stride;
use crate::ndarray_layout::SlowerAxes;

/// Calls a function with a total and an item, and hands it back.
///
/// <details><summary>Contract (proved)</summary>
///
/// ```text
/// requires F.pre f total item
/// ensures F.step f total item.entry result.0 result.1
/// ```
/// [How to read it](crate::contracts)
/// </details>
#[inline(always)]
fn turn<'a, T, B, F: FnMut(B, &'a T) -> B>(mut f: F, total: B, item: &'a T) -> (B, F) {
    let next = f(total, item);
    (next, f)
}

/// Folds the items of a slice, and hands back the function.
///
/// <details><summary>Contract (proved)</summary>
///
/// ```text
/// requires CallableInFold lends F.FnMut (map Some items.now) f init
/// ensures HasFolded F.FnMut (f, init) (map Some items.now) (result.1, result.0)
/// ```
/// [How to read it](crate::contracts)
/// </details>
#[inline(always)]
fn fold_slice<'a, T, B, F: FnMut(B, &'a T) -> B>(items: &'a [T], init: B, mut f: F) -> (B, F) {
    let mut total = init;
    for item in items {
        (total, f) = turn(f, total, item);
    }
    (total, f)
}

/// How many items a row has at least that is folded as a slice from its end: one by one, those of fewer take less time.
const LONG: usize = 8;

/// Folds the items of a slice from the last one on, and hands back the function.
///
/// <details><summary>Contract (proved)</summary>
///
/// ```text
/// requires CallableInFold lends F.FnMut (reverse (map Some items.now)) f init
/// ensures HasFolded F.FnMut (f, init) (reverse (map Some items.now)) (result.1, result.0)
/// ```
/// [How to read it](crate::contracts)
/// </details>
#[inline(always)]
fn rfold_slice<'a, T, B, F: FnMut(B, &'a T) -> B>(items: &'a [T], init: B, mut f: F) -> (B, F) {
    let mut total = init;
    for item in items.iter().rev() {
        (total, f) = turn(f, total, item);
    }
    (total, f)
}

/// Folds the items of a slice from the last one on, and hands back the function. It stays a call, so that a loop over rows is short.
///
/// <details><summary>Contract (proved)</summary>
///
/// ```text
/// requires CallableInFold lends F.FnMut (reverse (map Some items.now)) f init
/// ensures HasFolded F.FnMut (f, init) (reverse (map Some items.now)) (result.1, result.0)
/// ```
/// [How to read it](crate::contracts)
/// </details>
#[inline(never)]
fn fold_backwards<'a, T, B, F: FnMut(B, &'a T) -> B>(items: &'a [T], init: B, f: F) -> (B, F) {
    rfold_slice(items, init, f)
}

/// Folds the items of a row of `len` items, place by place, and returns the function too.
///
/// <details><summary>Contract (proved)</summary>
///
/// ```text
/// requires len: len ≡ row.now.row.len
/// requires callable: CallableInFold lends F.FnMut (row_items row.now) f init
/// ensures HasFolded F.FnMut (f, init) (row_items row.now) (result.1, result.0)
/// ```
/// [How to read it](crate::contracts)
/// </details>
#[inline(always)]
fn fold_places<'a, T, B, F: FnMut(B, &'a T) -> B>(row: &LentRow<'a, T>, len: usize, init: B, mut f: F) -> (B, F) {
    let mut total = init;
    for coordinate in 0..len {
        let item = row.item(coordinate);
        (total, f) = turn(f, total, item);
    }
    (total, f)
}

/// Folds the items of a row that don't follow one another, and hands back the function.
///
/// <details><summary>Contract (proved)</summary>
///
/// ```text
/// requires CallableInFold lends F.FnMut (row_items row.now) f init
/// ensures HasFolded F.FnMut (f, init) (row_items row.now) (result.1, result.0)
/// ```
/// [How to read it](crate::contracts)
/// </details>
#[inline(always)]
fn fold_turned<'a, T, B, F: FnMut(B, &'a T) -> B>(row: &LentRow<'a, T>, init: B, f: F) -> (B, F) {
    if row.len() >= LONG {
        if let Some(items) = row.as_slice_backwards() {
            return fold_backwards(items, init, f);
        }
    }
    match lent_by_stride(row, 2) {
        Some(row) => fold_places(&row, row.len(), init, f),
        None => fold_places(row, row.len(), init, f),
    }
}

/// Folds the items of a row, of `few` unless that is 0, and hands back the function.
///
/// <details><summary>Contract (proved)</summary>
///
/// ```text
/// requires few: 0 < few → few ≡ row.now.row.len
/// requires callable: CallableInFold lends F.FnMut (row_items row.now) f init
/// ensures HasFolded F.FnMut (f, init) (row_items row.now) (result.1, result.0)
/// ```
/// [How to read it](crate::contracts)
/// </details>
#[inline(always)]
fn fold_row<'a, T, B, F: FnMut(B, &'a T) -> B>(row: &LentRow<'a, T>, few: usize, init: B, f: F) -> (B, F) {
    if few > 0 {
        return fold_places(row, few, init, f);
    }
    match row.as_slice() {
        Some(items) => fold_slice(items, init, f),
        None => fold_turned(row, init, f),
    }
}

/// Folds the items of a row, and hands back the function: of 2 to 4 items by their number, which rustc knows.
///
/// <details><summary>Contract (proved)</summary>
///
/// ```text
/// requires CallableInFold lends F.FnMut (row_items row.now) f init
/// ensures HasFolded F.FnMut (f, init) (row_items row.now) (result.1, result.0)
/// ```
/// [How to read it](crate::contracts)
/// </details>
#[inline(always)]
fn fold_any<'a, T, B, F: FnMut(B, &'a T) -> B>(row: &LentRow<'a, T>, init: B, f: F) -> (B, F) {
    match row.len() {
        2 => fold_places(row, 2, init, f),
        3 => fold_places(row, 3, init, f),
        4 => fold_places(row, 4, init, f),
        _ => fold_row(row, 0, init, f),
    }
}

/// Folds the items of a row place by place, from the last one on, and hands back the function.
///
/// <details><summary>Contract (proved)</summary>
///
/// ```text
/// requires CallableInFold lends F.FnMut (reverse (row_items row.now)) f init
/// ensures HasFolded F.FnMut (f, init) (reverse (row_items row.now)) (result.1, result.0)
/// ```
/// [How to read it](crate::contracts)
/// </details>
#[inline(always)]
fn rfold_places<'a, T, B, F: FnMut(B, &'a T) -> B>(row: &LentRow<'a, T>, init: B, mut f: F) -> (B, F) {
    let mut total = init;
    let len = row.len();
    for coordinate in 0..len {
        let item = row.item(len - 1 - coordinate);
        (total, f) = turn(f, total, item);
    }
    (total, f)
}

/// Folds the items of a row from the last one on, and hands back the function.
///
/// <details><summary>Contract (proved)</summary>
///
/// ```text
/// requires CallableInFold lends F.FnMut (reverse (row_items row.now)) f init
/// ensures HasFolded F.FnMut (f, init) (reverse (row_items row.now)) (result.1, result.0)
/// ```
/// [How to read it](crate::contracts)
/// </details>
#[inline(always)]
fn rfold_row<'a, T, B, F: FnMut(B, &'a T) -> B>(row: &LentRow<'a, T>, init: B, f: F) -> (B, F) {
    match row.as_slice() {
        Some(items) => rfold_slice(items, init, f),
        None => rfold_places(row, init, f),
    }
}

/// Folds the items of rows, one row after another: of `few` each, unless that is 0. By a number that is known a row needs no loop.
///
/// <details><summary>Contract (proved)</summary>
///
/// ```text
/// requires few: 0 < few → All (λ row. few ≡ row.row.len) rows
/// requires callable: CallableInFold lends F.FnMut (rows_items rows) f init
/// ensures HasFolded F.FnMut (f, init) (rows_items rows.entry) (result.1, result.0)
/// ```
/// [How to read it](crate::contracts)
/// </details>
#[inline(always)]
fn fold_each<'a, T, A: SlowerAxes, B, F: FnMut(B, &'a T) -> B>(
    rows: LentRowsOf<'a, T, A>,
    few: usize,
    init: B,
    f: F,
) -> (B, F) {
    let (mut total, mut f) = (init, f);
    for row in rows {
        (total, f) = fold_row(&row, few, total, f);
    }
    (total, f)
}

/// Folds the items of rows, one row after another, and hands back the function: rows of 2 to 4 items by their number, which rustc knows.
///
/// <details><summary>Contract (proved)</summary>
///
/// ```text
/// requires CallableInFold lends F.FnMut (rows_items rows) f init
/// ensures HasFolded F.FnMut (f, init) (rows_items rows.entry) (result.1, result.0)
/// ```
/// [How to read it](crate::contracts)
/// </details>
#[inline(always)]
fn fold_all<'a, T, A: SlowerAxes, B, F: FnMut(B, &'a T) -> B>(rows: LentRowsOf<'a, T, A>, init: B, f: F) -> (B, F) {
    match rows.row_len() {
        2 => fold_each(rows, 2, init, f),
        3 => fold_each(rows, 3, init, f),
        4 => fold_each(rows, 4, init, f),
        _ => fold_each(rows, 0, init, f),
    }
}

/// Folds the items of a row, and hands back the function; of no row there are none.
///
/// <details><summary>Contract (proved)</summary>
///
/// ```text
/// requires CallableInFold lends F.FnMut (items_of_row row) f init
/// ensures HasFolded F.FnMut (f, init) (items_of_row row.entry) (result.1, result.0)
/// ```
/// [How to read it](crate::contracts)
/// </details>
#[inline(always)]
fn fold_end<'a, T, B, F: FnMut(B, &'a T) -> B>(row: Option<LentRow<'a, T>>, init: B, f: F) -> (B, F) {
    match row {
        Some(row) => fold_row(&row, 0, init, f),
        None => (init, f),
    }
}

/// Folds the items of rows, one row after another.
///
/// <details><summary>Contract (proved)</summary>
///
/// ```text
/// requires CallableInFold lends F.FnMut (rows_items rows) f init
/// ensures FoldsItems lends F.FnMut (rows_items rows.entry) f init result
/// ```
/// [How to read it](crate::contracts)
/// </details>
#[inline(always)]
pub fn fold_rows<'a, T, B, F: FnMut(B, &'a T) -> B>(rows: LentRows<'a, T>, init: B, f: F) -> B {
    fold_all(rows, init, f).0
}

/// What `fold` of std's iterators returns of items that are left as rows: what is left of one, rows that haven't begun, and what is left
/// of one at the back.
///
/// <details><summary>Contract (proved)</summary>
///
/// ```text
/// requires callable: CallableInFold lends F.FnMut ((items_of_row left.0 ++ rows_items left.1) ++ items_of_row left.2) f init
/// ensures ran: FoldsItems lends F.FnMut ((items_of_row left.entry.0 ++ rows_items left.entry.1) ++ items_of_row left.entry.2) f init result
/// ```
/// [How to read it](crate::contracts)
/// </details>
#[inline(always)]
pub fn fold_rows_left<'a, T, A: SlowerAxes, B, F: FnMut(B, &'a T) -> B>(
    left: (Option<LentRow<'a, T>>, LentRowsOf<'a, T, A>, Option<LentRow<'a, T>>),
    init: B,
    f: F,
) -> B {
    let (first, rows, last) = left;
    let (total, f) = fold_end(first, init, f);
    let (total, f) = fold_all(rows, total, f);
    fold_end(last, total, f).0
}

/// What `fold` of std's iterators returns of the items that are left, row by row: one whose items follow one another is a loop over a
/// slice.
///
/// <details><summary>Contract (proved)</summary>
///
/// ```text
/// requires callable: CallableInFold lends F.FnMut (I.left items) f init
/// ensures ran: FoldsItems lends F.FnMut (I.left items) f init result
/// ```
/// [How to read it](crate::contracts)
/// </details>
#[inline(always)]
pub fn fold_rest<'a, T: 'a, I: RowByRow<'a, T> + Sized, B, F: FnMut(B, &'a T) -> B>(items: I, init: B, f: F) -> B {
    let (mut items, mut total, mut f) = (items, init, f);
    while let Some(row) = items.next_row() {
        (total, f) = fold_any(&row, total, f);
    }
    total
}

/// What `rfold` of std's iterators returns of the items that are left, row by row from the back: one whose items follow one another is a
/// loop over a slice.
///
/// <details><summary>Contract (proved)</summary>
///
/// ```text
/// requires callable: CallableInFold lends_last F.FnMut (I.left items) f init
/// ensures ran: FoldsItems lends_last F.FnMut (I.left items) f init result
/// ```
/// [How to read it](crate::contracts)
/// </details>
#[inline(always)]
pub fn rfold_rest<'a, T: 'a, I: RowByRow<'a, T> + Sized, B, F: FnMut(B, &'a T) -> B>(items: I, init: B, f: F) -> B {
    let (mut items, mut total, mut f) = (items, init, f);
    while let Some(row) = items.next_row_back() {
        (total, f) = rfold_row(&row, total, f);
    }
    total
}
