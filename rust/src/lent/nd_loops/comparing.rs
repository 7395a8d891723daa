// Made by `rust/erase` of `crates/nd_loops/src/comparing.rt`: edit that.
//! Whether two arrays have the same items.

use crate::lent::nd_access::{LentRow, LentRows};
use crate::lent::nd_loops::few::lent_by_few;

/// A type whose items are compared with those of another type, one by one and as slices: each of Rust's `PartialEq<U>`.
pub trait EqualTo<U>: Sized {
    /// Whether both items are equal. `2_u8` and 2: `true`. Rust's `eq`.
    ///
    /// <details><summary>Contract (proved)</summary>
    ///
    /// ```text
    /// ensures result ≡ equal_to self.now other.now
    /// ```
    /// [How to read it](crate::contracts)
    /// </details>
    fn is_equal_to(&self, other: &U) -> bool;

    /// Whether the slices have one length, and each item is equal to the one beside it. 7 8 and 7: `false`. Rust's `eq` of slices.
    ///
    /// <details><summary>Contract (proved)</summary>
    ///
    /// ```text
    /// ensures result ≡ pointwise equal_to items.now others.now
    /// ```
    /// [How to read it](crate::contracts)
    /// </details>
    fn are_equal_to(items: &[Self], others: &[U]) -> bool;
}

/// Whether the items of two rows of one length are equal, one after another.
///
/// <details><summary>Contract (proved)</summary>
///
/// ```text
/// requires one.now.row.len ≡ other.now.row.len
/// ensures result ≡ pointwise (both_equal T.equal_to) (row_items one.now) (row_items other.now)
/// ```
/// [How to read it](crate::contracts)
/// </details>
#[inline(always)]
fn have_equal_places<T: EqualTo<U>, U>(one: &LentRow<'_, T>, other: &LentRow<'_, U>) -> bool {
    for coordinate in 0..one.len() {
        if !one.item(coordinate).is_equal_to(other.item(coordinate)) {
            return false;
        }
    }
    true
}

/// Whether two rows of one length, of `FEW` unless that is 0, are equal: as slices where both are.
///
/// <details><summary>Contract (proved)</summary>
///
/// ```text
/// requires few: 0 < FEW → FEW ≡ one.row.len
/// requires count: one.row.len ≡ other.now.row.len
/// ensures result ≡ pointwise (both_equal T.equal_to) (row_items one.entry) (row_items other.now)
/// ```
/// [How to read it](crate::contracts)
/// </details>
#[inline(always)]
fn are_equal_rows<const FEW: usize, T: EqualTo<U>, U>(one: LentRow<'_, T>, other: &LentRow<'_, U>) -> bool {
    if FEW > 0 {
        return have_equal_places(&lent_by_few::<FEW, T>(one), other);
    }
    match (one.as_slice(), other.as_slice()) {
        (Some(items), Some(others)) => T::are_equal_to(items, others),
        _ => have_equal_places(&one, other),
    }
}

/// Whether each row, of `FEW` items unless that is 0, is equal to the one beside it, of the same length.
///
/// <details><summary>Contract (proved)</summary>
///
/// ```text
/// requires few: 0 < FEW → All (λ row. FEW ≡ row.row.len) rows
/// requires count: AllZip (λ row other. row.row.len ≡ other.row.len) rows others
/// ensures result ≡ pointwise (both_equal T.equal_to) (rows_items rows.entry) (rows_items others.entry)
/// ```
/// [How to read it](crate::contracts)
/// </details>
#[inline(always)]
fn have_equal_each<const FEW: usize, T: EqualTo<U>, U>(rows: LentRows<'_, T>, others: LentRows<'_, U>) -> bool {
    let mut others = others;
    for row in rows {
        if let Some(other) = others.next() {
            if !are_equal_rows::<FEW, T, U>(row, &other) {
                return false;
            }
        }
    }
    true
}

/// Whether each row is equal to the one beside it, of the same length.
///
/// <details><summary>Contract (proved)</summary>
///
/// ```text
/// requires AllZip (λ row other. row.row.len ≡ other.row.len) rows others
/// ensures result ≡ pointwise (both_equal T.equal_to) (rows_items rows.entry) (rows_items others.entry)
/// ```
/// [How to read it](crate::contracts)
/// </details>
#[inline]
pub fn have_equal_rows<T: EqualTo<U>, U>(rows: LentRows<'_, T>, others: LentRows<'_, U>) -> bool {
    match rows.row_len() {
        2 => have_equal_each::<2, T, U>(rows, others),
        3 => have_equal_each::<3, T, U>(rows, others),
        4 => have_equal_each::<4, T, U>(rows, others),
        _ => have_equal_each::<0, T, U>(rows, others),
    }
}
