// Made by `rust/erase` of `crates/nd_items/src/next_index.rt`: edit that.
//! The indices that an iterator over items has still to give: the row in progress, and in it the last coordinate as a number.

use crate::memory::AllocError;
use crate::ndarray_layout::{Lengths, advance_row_major};

/// Where an iterator stands in a row of indices: the last coordinate of the index that comes next, how long the row is, and how many
/// indices come after it.
#[derive(Clone, Copy)]
pub(crate) struct InRow {
    last: usize,
    len: usize,
    after: usize,
}

impl InRow {
    /// At an index, with which `left` are left.
    ///
    /// <details><summary>Contract (proved)</summary>
    ///
    /// ```text
    /// requires here: is_index shape.now index.now ≡ true
    /// requires left: flat_index shape.now index.now + left ≡ size shape.now
    /// ensures stands: StandsInRow shape.now index.now result
    /// ensures left: left_from result ≡ left
    /// ensures last: result.last < result.len
    /// ```
    /// [How to read it](crate::contracts)
    /// </details>
    #[inline]
    fn of(shape: &[usize], index: &[usize], left: usize) -> InRow {
        let last = index.last().copied().unwrap_or(0);
        let len = shape.last().copied().unwrap_or(1);
        InRow { last, len, after: left - (len - last) }
    }
}

/// The indices of a shape that are still to come, in row-major order. The project's own.
pub struct NextIndex<D: Lengths> {
    dim: D,
    // An index of the row in progress, whatever its last coordinate is.
    row: D,
    at: InRow,
}

/// A row's index with a last coordinate; without axes the row's one index.
/// Errors: out of memory.
///
/// <details><summary>Contract (proved)</summary>
///
/// ```text
/// ensures index: IfOk result (λ index. D.list index ≡ with_last (D.list row.now) last)
/// ensures memory: NeedsNoMemory D.NDIM (length (D.list row.now)) → IsOk result
/// ```
/// [How to read it](crate::contracts)
/// </details>
#[inline(always)]
fn index_in_row<D: Lengths>(row: &D, last: usize) -> Result<D, AllocError> {
    let mut index = row.duplicate()?;
    let coordinates = index.slice_mut();
    if let Some(coordinate) = coordinates.last_mut() {
        *coordinate = last;
    }
    Ok(index)
}

/// The first index of the row after that of an index, whose rows have `len` indices. Errors: out of memory.
///
/// # Conditions
///
/// The caller ensures that there is one. Otherwise this call or a later one panics or returns unspecified values.
///
/// <details><summary>Contract (proved)</summary>
///
/// ```text
/// requires here: is_index (D.list dim.now) (D.list row.now) ≡ true
/// requires len: len ≡ row_len (D.list dim.now)
/// requires more: row_start (D.list dim.now) (D.list row.now) + len < size (D.list dim.now)
/// ensures next: IfOk result (λ next. D.list next ≡
///     index_of_flat (D.list dim.now) (row_start (D.list dim.now) (D.list row.now) + len))
/// ensures memory: NeedsNoMemory D.NDIM (length (D.list row.now)) → IsOk result
/// ```
/// [How to read it](crate::contracts)
/// </details>
#[inline(always)]
fn row_after<D: Lengths>(dim: &D, row: &D, len: usize) -> Result<D, AllocError> {
    let mut index = index_in_row(row, len - 1)?;
    let _has_next = advance_row_major(dim.slice(), index.slice_mut());
    Ok(index)
}

impl<D: Lengths> NextIndex<D> {
    /// All indices of a shape.
    ///
    /// # Errors
    ///
    /// Out of memory; never where the type fixes the count of axes or there are at most 4.
    ///
    /// # Conditions
    ///
    /// The caller ensures that they are `count`. Otherwise this call or a later one panics or returns unspecified
    /// values.
    ///
    /// <details><summary>Contract (proved)</summary>
    ///
    /// ```text
    /// requires count ≡ size (D.list dim.now)
    /// ensures indices: IfOk result (λ left. left ≡ indices_in RowMajor (D.list dim.now))
    /// ensures memory: NeedsNoMemory D.NDIM (length (D.list dim.now)) → IsOk result
    /// ```
    /// [How to read it](crate::contracts)
    /// </details>
    #[inline]
    pub(in crate::lent) fn first(dim: &D, count: usize) -> Result<Self, AllocError> {
        let dim = dim.duplicate()?;
        let row = D::zeros(dim.ndim())?;
        let at =
            if count == 0 { InRow { last: 0, len: 0, after: 0 } } else { InRow::of(dim.slice(), row.slice(), count) };
        Ok(NextIndex { dim, row, at })
    }

    /// The next index; `None` where none is left.
    ///
    /// Takes time in proportion to the count of axes; where the type fixes that, only once a row.
    ///
    /// Of `[2,2]`: (0,0), then (0,1), (1,0), (1,1), and then `None`. The project's own.
    ///
    /// # Errors
    ///
    /// Out of memory; never where the type fixes the count of axes, there are at most 4, or none is left. The indices that are left are
    /// unchanged after it.
    ///
    /// <details><summary>Contract (proved)</summary>
    ///
    /// ```text
    /// ensures memory: All (λ index. NeedsNoMemory D.NDIM (length index)) self.old → IsOk result
    /// ensures unchanged: IfErr result (λ _. self.new ≡ self.old)
    /// ensures first: IfOk result (λ next. MatchOption next
    ///     ((self.old ≡ []) × (self.new ≡ []))
    ///     (λ index. self.old ≡ D.list index ∷ self.new))
    /// ```
    /// [How to read it](crate::contracts)
    /// </details>
    #[inline(always)]
    pub(crate) fn take(&mut self) -> Result<Option<D>, AllocError> {
        if self.at.last < self.at.len {
            let index = index_in_row(&self.row, self.at.last)?;
            self.at.last += 1;
            return Ok(Some(index));
        }
        if self.at.after == 0 {
            return Ok(None);
        }
        let index = row_after(&self.dim, &self.row, self.at.len)?;
        self.row.slice_mut().copy_from_slice(index.slice());
        self.at = InRow::of(self.dim.slice(), index.slice(), self.at.after);
        self.at.last += 1;
        Ok(Some(index))
    }
}
