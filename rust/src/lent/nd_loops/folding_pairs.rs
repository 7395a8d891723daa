// Made by `rust/erase` of `crates/nd_loops/src/folding_pairs.rt`: edit that.
//! A function that is called at the items of two arrays in step, row by row.

use crate::lent::nd_access::{LentRow, LentRows};
use crate::lent::nd_loops::few::{lent_by_few, lent_by_stride};

/// Folds the items of two rows of one length in step, place by place, and hands back the function.
///
/// <details><summary>Contract (proved)</summary>
///
/// ```text
/// requires count: row.now.row.len ≡ other.now.row.len
/// requires callable: CallableInFoldOfPairs F.FnMut (pairs_of (row_items row.now) (row_items other.now)) f init
/// ensures HasFoldedPairs F.FnMut (f, init) (pairs_of (row_items row.now) (row_items other.now)) (result.1, result.0)
/// ```
/// [How to read it](crate::contracts)
/// </details>
#[inline(always)]
fn fold_pair_places<T, U, B, F: for<'x> FnMut(B, &'x T, &'x U) -> B>(
    row: &LentRow<'_, T>,
    other: &LentRow<'_, U>,
    init: B,
    mut f: F,
) -> (B, F) {
    let mut total = init;
    for coordinate in 0..row.len() {
        total = f(total, row.item(coordinate), other.item(coordinate));
    }
    (total, f)
}

/// Both rows by a stride that rustc knows, where that is the stride of both; else `None`.
///
/// <details><summary>Contract (proved)</summary>
///
/// ```text
/// ensures IfSome result (λ known. (known.0 ≡ row.now) × (known.1 ≡ other.now))
/// ```
/// [How to read it](crate::contracts)
/// </details>
#[inline(always)]
fn pair_by_stride<'a, 'b, T, U>(
    row: &LentRow<'a, T>,
    other: &LentRow<'b, U>,
    stride: isize,
) -> Option<(LentRow<'a, T>, LentRow<'b, U>)> {
    Some((lent_by_stride(row, stride)?, lent_by_stride(other, stride)?))
}

/// Folds the items of two rows of one length that aren't both slices in step, and hands back the function: by the stride -1 or 2, of
/// which LLVM makes a loop over vectors, where that is the stride of both.
///
/// <details><summary>Contract (proved)</summary>
///
/// ```text
/// requires count: row.now.row.len ≡ other.now.row.len
/// requires callable: CallableInFoldOfPairs F.FnMut (pairs_of (row_items row.now) (row_items other.now)) f init
/// ensures HasFoldedPairs F.FnMut (f, init) (pairs_of (row_items row.now) (row_items other.now)) (result.1, result.0)
/// ```
/// [How to read it](crate::contracts)
/// </details>
#[inline(always)]
fn fold_pair_turned<T, U, B, F: for<'x> FnMut(B, &'x T, &'x U) -> B>(
    row: &LentRow<'_, T>,
    other: &LentRow<'_, U>,
    init: B,
    f: F,
) -> (B, F) {
    if let Some((row, other)) = pair_by_stride(row, other, -1) {
        return fold_pair_places(&row, &other, init, f);
    }
    match pair_by_stride(row, other, 2) {
        Some((row, other)) => fold_pair_places(&row, &other, init, f),
        None => fold_pair_places(row, other, init, f),
    }
}

/// Folds the items of two rows of one length, of `FEW` unless that is 0, in step, and hands back the function: by slices where both
/// are.
///
/// <details><summary>Contract (proved)</summary>
///
/// ```text
/// requires few: 0 < FEW → FEW ≡ row.row.len
/// requires count: row.row.len ≡ other.now.row.len
/// requires callable: CallableInFoldOfPairs F.FnMut (pairs_of (row_items row) (row_items other.now)) f init
/// ensures HasFoldedPairs F.FnMut (f, init) (pairs_of (row_items row.entry) (row_items other.now)) (result.1, result.0)
/// ```
/// [How to read it](crate::contracts)
/// </details>
#[inline(always)]
fn fold_pair_row<const FEW: usize, T, U, B, F: for<'x> FnMut(B, &'x T, &'x U) -> B>(
    row: LentRow<'_, T>,
    other: &LentRow<'_, U>,
    init: B,
    f: F,
) -> (B, F) {
    if FEW > 0 {
        return fold_pair_places(&lent_by_few::<FEW, T>(row), other, init, f);
    }
    match (row.alone(), other.alone()) {
        (Some(items), Some(others)) => fold_pair_places(&items, &others, init, f),
        _ => fold_pair_turned(&row, other, init, f),
    }
}

/// Folds the items of rows, of `FEW` each unless that is 0, and those of the rows beside them in step, one row after another.
///
/// <details><summary>Contract (proved)</summary>
///
/// ```text
/// requires few: 0 < FEW → All (λ row. FEW ≡ row.row.len) rows
/// requires count: AllZip (λ row other. row.row.len ≡ other.row.len) rows others
/// requires callable: CallableInFoldOfPairs F.FnMut (pairs_of (rows_items rows) (rows_items others)) f init
/// ensures FoldsPairs F.FnMut (pairs_of (rows_items rows.entry) (rows_items others.entry)) f init result
/// ```
/// [How to read it](crate::contracts)
/// </details>
#[inline(always)]
fn fold_pair_each<const FEW: usize, T, U, B, F: for<'x> FnMut(B, &'x T, &'x U) -> B>(
    rows: LentRows<'_, T>,
    others: LentRows<'_, U>,
    init: B,
    f: F,
) -> B {
    let (mut others, mut total, mut f) = (others, init, f);
    for row in rows {
        if let Some(other) = others.next() {
            (total, f) = fold_pair_row::<FEW, T, U, B, F>(row, &other, total, f);
        }
    }
    total
}

/// Folds the items of rows and those of the rows beside them, each of the same length, in step, one row after another.
///
/// <details><summary>Contract (proved)</summary>
///
/// ```text
/// requires count: AllZip (λ row other. row.row.len ≡ other.row.len) rows others
/// requires callable: CallableInFoldOfPairs F.FnMut (pairs_of (rows_items rows) (rows_items others)) f init
/// ensures FoldsPairs F.FnMut (pairs_of (rows_items rows.entry) (rows_items others.entry)) f init result
/// ```
/// [How to read it](crate::contracts)
/// </details>
#[inline(always)]
pub fn fold_pair_rows<T, U, B, F: for<'x> FnMut(B, &'x T, &'x U) -> B>(
    rows: LentRows<'_, T>,
    others: LentRows<'_, U>,
    init: B,
    f: F,
) -> B {
    match rows.row_len() {
        2 => fold_pair_each::<2, T, U, B, F>(rows, others, init, f),
        3 => fold_pair_each::<3, T, U, B, F>(rows, others, init, f),
        4 => fold_pair_each::<4, T, U, B, F>(rows, others, init, f),
        _ => fold_pair_each::<0, T, U, B, F>(rows, others, init, f),
    }
}
