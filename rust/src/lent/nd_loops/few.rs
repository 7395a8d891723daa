// Made by `rust/erase` of `crates/nd_loops/src/few.rt`: edit that.
//! Rows by numbers that rustc knows: few items, so that one needs no loop of its own, or a stride, of which LLVM makes a loop over
//! vectors.

use crate::lent::nd_access::LentRow;
use crate::ndarray_layout::Row;

/// The row, by `FEW` items unless that is 0: a number that rustc knows.
///
/// <details><summary>Contract (proved)</summary>
///
/// ```text
/// requires 0 < FEW → FEW ≡ row.len
/// ensures result ≡ row
/// ```
/// [How to read it](crate::contracts)
/// </details>
#[inline(always)]
pub(crate) fn by_few<const FEW: usize>(row: Row) -> Row {
    if FEW == 0 {
        return row;
    }
    Row { start: row.start, stride: row.stride, len: FEW }
}

/// `by_few` of a row that is lent.
///
/// <details><summary>Contract (proved)</summary>
///
/// ```text
/// requires 0 < FEW → FEW ≡ row.row.len
/// ensures result ≡ row.entry
/// ```
/// [How to read it](crate::contracts)
/// </details>
#[inline(always)]
pub(crate) fn lent_by_few<const FEW: usize, T>(row: LentRow<'_, T>) -> LentRow<'_, T> {
    LentRow { reader: row.reader, row: by_few::<FEW>(row.row) }
}

/// What the first place and the length of a row are below that is gone over by a stride that rustc knows: so LLVM sees that no place of
/// it wraps.
const SMALL: usize = 1 << 60;

/// The row by a stride that rustc knows, where that is its stride; else `None`.
///
/// <details><summary>Contract (proved)</summary>
///
/// ```text
/// ensures IfSome result (λ known. known ≡ row.now)
/// ```
/// [How to read it](crate::contracts)
/// </details>
#[inline(always)]
pub(crate) fn lent_by_stride<'a, T>(row: &LentRow<'a, T>, stride: isize) -> Option<LentRow<'a, T>> {
    let Row { start, stride: own, len } = row.row;
    if own != stride || start >= SMALL || len >= SMALL {
        return None;
    }
    Some(LentRow { reader: row.reader.copied(), row: Row { start, stride, len } })
}
