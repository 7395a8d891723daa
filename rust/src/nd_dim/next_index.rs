// Made by `rust/erase` of `crates/nd_dim/src/next_index.rt`: edit that.
//! From one index of a shape to the next.

use crate::nd_dim::sequence::{Forward, Reverse, Sequence, SequenceMut, item};

/// Moves an index to the next one, where both sequences begin with the axis that moves fastest.
/// Returns whether there is one; the last index becomes the first, all 0, with `false`.
///
/// <details><summary>Contract (proved)</summary>
///
/// ```text
/// requires is_index (S.items shape.now) (I.items index.old) ≡ true
/// ensures more: IsTrue result ↔
///     (flat_index_in ColumnMajor (S.items shape.now) (I.items index.old) + 1
///     < size (S.items shape.now))
/// ensures next: I.items index.new ≡ (if result
///     then index_of_flat_in
///     ColumnMajor
///     (S.items shape.now)
///     (flat_index_in ColumnMajor (S.items shape.now) (I.items index.old) + 1)
///     else replicate (length (S.items shape.now)) 0)
/// ensures target: I.same_target index.old index.new
/// ```
/// [How to read it](crate::contracts)
/// </details>
#[inline(always)]
fn advance<S: Sequence, I: SequenceMut>(shape: &S, index: &mut I) -> bool {
    // (the coordinate is written before it is known to be the one: loops run in half the time so)
    for k in 0..shape.len() {
        let len = item(shape, k);
        let next = item(index, k) + 1;
        index.set(k, next);
        if next < len {
            return true;
        }
        index.set(k, 0);
    }
    false
}

/// Moves an index of a shape to the next one in row-major order, where the last axis moves fastest,
/// and returns whether there is one; the last index becomes the first, all 0, with `false`.
///
/// Takes time in proportion to the count of axes.
///
/// After (0,2) of `[2,3]`: (1,0). The step of ndarray's `next_for`.
///
/// # Conditions
///
/// The caller ensures that `index` is an index of the shape (`is_index`). Otherwise this call or a later one panics or
/// returns unspecified values.
///
/// <details><summary>Contract (proved)</summary>
///
/// ```text
/// requires is_index shape.now index.old ≡ true
/// ensures more: IsTrue result ↔ (flat_index shape.now index.old + 1 < size shape.now)
/// ensures next: index.new ≡ (if result
///     then index_of_flat shape.now (flat_index shape.now index.old + 1)
///     else replicate (length shape.now) 0)
/// ```
/// [How to read it](crate::contracts)
/// </details>
#[must_use]
#[inline(always)]
pub fn advance_row_major(shape: &[usize], index: &mut [usize]) -> bool {
    advance(&Reverse(shape), &mut Reverse(index))
}

/// Moves an index of a shape to the next one in column-major order, where the first axis moves
/// fastest, and returns whether there is one; the last index becomes the first, all 0, with
/// `false`.
///
/// Takes time in proportion to the count of axes.
///
/// After (1,0) of `[2,3]`: (0,1). The step of ndarray's `next_for_f`.
///
/// # Conditions
///
/// The caller ensures that `index` is an index of the shape (`is_index`). Otherwise this call or a later one panics or
/// returns unspecified values.
///
/// <details><summary>Contract (proved)</summary>
///
/// ```text
/// requires is_index shape.now index.old ≡ true
/// ensures more: IsTrue result ↔ (flat_index_in ColumnMajor shape.now index.old + 1 < size shape.now)
/// ensures next: index.new ≡ (if result
///     then index_of_flat_in
///     ColumnMajor
///     shape.now
///     (flat_index_in ColumnMajor shape.now index.old + 1)
///     else replicate (length shape.now) 0)
/// ```
/// [How to read it](crate::contracts)
/// </details>
#[must_use]
#[inline(always)]
pub fn advance_column_major(shape: &[usize], index: &mut [usize]) -> bool {
    advance(&Forward(shape), &mut Forward(index))
}
