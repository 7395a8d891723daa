// Made by `rust/erase` of `crates/nd_loops/src/summing.rt`: edit that.
//! Sums of the items of a row.

use crate::lent::nd_access::{LentRow, LentRows};
use crate::lent::nd_loops::few::{lent_by_few, lent_by_stride};
use crate::lent::nd_loops::unsigned::Unsigned;

/// How many items are added before their sum is tested.
const UNTESTED: usize = 1 << 20;

/// What the lower half of a `u64` counts up to.
const HALF: u64 = 1 << 32;

/// How many items a row has at least that is added as a slice: one by one, those of fewer take less time.
const LONG: usize = 16;

/// The sum of few items; `None` where it passes the greatest `u64`. The halves of the numbers are added apart, and neither sum
/// wraps, so that no item needs a test.
///
/// <details><summary>Contract (proved)</summary>
///
/// ```text
/// requires length items.now ≤ 1048576
/// ensures result ≡ within_u64 (sum_by T.number items.now)
/// ```
/// [How to read it](crate::contracts)
/// </details>
#[inline(always)]
fn sum_few<T: Unsigned>(items: &[T]) -> Option<u64> {
    let (mut low, mut high) = (0, 0);
    for item in items {
        let number = item.to_u64();
        low += number % HALF;
        high += number / HALF;
    }
    low.checked_add(HALF.checked_mul(high)?)
}

/// The sum of the items of a slice; `None` where it passes the greatest `u64`.
///
/// <details><summary>Contract (proved)</summary>
///
/// ```text
/// ensures result ≡ within_u64 (sum_by T.number items.now)
/// ```
/// [How to read it](crate::contracts)
/// </details>
#[inline(always)]
fn sum_slice<T: Unsigned>(items: &[T]) -> Option<u64> {
    let (mut total, mut left) = (0u64, items);
    while !left.is_empty() {
        let (these, others) = left.split_at(left.len().min(UNTESTED));
        total = total.checked_add(sum_few(these)?)?;
        left = others;
    }
    Some(total)
}

/// The sum of the items of a row, place by place; `None` where it passes the greatest `u64`, which is tested once: the sum
/// of as many numbers of 64 bits fits 128.
///
/// <details><summary>Contract (proved)</summary>
///
/// ```text
/// ensures result ≡ within_u64 (sum_by (λ item. option_map_or T.number item 0) (row_items row.now))
/// ```
/// [How to read it](crate::contracts)
/// </details>
#[inline(always)]
fn sum_places<T: Unsigned>(row: &LentRow<'_, T>) -> Option<u64> {
    let mut total = 0u128;
    for coordinate in 0..row.len() {
        total += u128::from(row.item(coordinate).to_u64());
    }
    u64::try_from(total).ok()
}

/// The sum of the items of a row of few, place by place; `None` where it passes the greatest `u64`. The halves of the numbers are added
/// apart, as in `sum_few`.
///
/// <details><summary>Contract (proved)</summary>
///
/// ```text
/// requires row.now.row.len ≤ 1048576
/// ensures result ≡ within_u64 (sum_by (λ item. option_map_or T.number item 0) (row_items row.now))
/// ```
/// [How to read it](crate::contracts)
/// </details>
#[inline(always)]
fn sum_few_places<T: Unsigned>(row: &LentRow<'_, T>) -> Option<u64> {
    let (mut low, mut high) = (0, 0);
    for coordinate in 0..row.len() {
        let number = row.item(coordinate).to_u64();
        low += number % HALF;
        high += number / HALF;
    }
    low.checked_add(HALF.checked_mul(high)?)
}

/// The sum of the items of a row, of `FEW` unless that is 0; `None` where it passes the greatest `u64`.
///
/// <details><summary>Contract (proved)</summary>
///
/// ```text
/// requires 0 < FEW → FEW ≡ row.row.len
/// ensures result ≡ within_u64 (sum_by (λ item. option_map_or T.number item 0) (row_items row.entry))
/// ```
/// [How to read it](crate::contracts)
/// </details>
#[inline(always)]
fn sum_row<const FEW: usize, T: Unsigned>(row: LentRow<'_, T>) -> Option<u64> {
    let known = lent_by_few::<FEW, T>(row);
    if known.len() >= LONG {
        if let Some(items) = known.as_slice() {
            return sum_slice(items);
        }
    }
    if known.len() > UNTESTED {
        return sum_places(&known);
    }
    match lent_by_stride(&known, 2) {
        Some(row) => sum_few_places(&row),
        None => sum_few_places(&known),
    }
}

/// The sum of the items of rows, of `FEW` each unless that is 0; `None` where it passes the greatest `u64`.
///
/// <details><summary>Contract (proved)</summary>
///
/// ```text
/// requires 0 < FEW → All (λ row. FEW ≡ row.row.len) rows
/// ensures result ≡ within_u64 (sum_by (λ item. option_map_or T.number item 0) (rows_items rows.entry))
/// ```
/// [How to read it](crate::contracts)
/// </details>
// (it stays a call, so that the loop over rows of each number has all registers)
#[inline(never)]
fn sum_each<const FEW: usize, T: Unsigned>(rows: LentRows<'_, T>) -> Option<u64> {
    let mut total = 0u64;
    for row in rows {
        total = total.checked_add(sum_row::<FEW, T>(row)?)?;
    }
    Some(total)
}

/// The sum of the items of rows; `None` where it passes the greatest `u64`.
///
/// <details><summary>Contract (proved)</summary>
///
/// ```text
/// ensures result ≡ within_u64 (sum_by (λ item. option_map_or T.number item 0) (rows_items rows.entry))
/// ```
/// [How to read it](crate::contracts)
/// </details>
#[inline]
pub fn sum_rows<T: Unsigned>(rows: LentRows<'_, T>) -> Option<u64> {
    match rows.row_len() {
        2 => sum_each::<2, T>(rows),
        3 => sum_each::<3, T>(rows),
        4 => sum_each::<4, T>(rows),
        _ => sum_each::<0, T>(rows),
    }
}
