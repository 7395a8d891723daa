// Made by `rust/erase` of `crates/nd_owned/src/rows.rt`: edit that.
//! The items at the places of a view, read and written row by row.

use crate::lent::nd_owned::even_rows::{EvenRows, place_at};
use crate::memory::AllocError;
use crate::memory::prelude::{FallibleVec, Vec};
use crate::ndarray_layout::{Lengths, Order, Places, Row, Strided};

/// How many neighbours are worth the call of a copy.
const WORTH_A_COPY: usize = 16;

/// Copies of the items at the places of a view, in row-major order. The longest rows that the axes allow are copied, and
/// where these are short the view is read place by place.
///
/// <details><summary>Contract (proved)</summary>
///
/// ```text
/// requires LiesWithin (length stored.now) view.now
/// ensures items: IfOk result (λ v. map Some v.items ≡ map (item_at_place stored.now) (view_places RowMajor view.now))
/// ensures memory: size view.now.shape ≡ 0 → IsOk result
/// ```
/// [How to read it](crate::contracts)
/// </details>
#[inline]
pub(crate) fn read_view<T: Copy, D: Lengths>(view: &Strided<D>, stored: &[T]) -> Result<Vec<T>, AllocError> {
    let mut items = Vec::fallible_with_capacity(view.len())?;
    let rows = view.joined_rows(Order::RowMajor);
    if rows.len() > view.len() / WORTH_A_COPY {
        return Ok(read_places(items, stored, view.iter_places(Order::RowMajor)));
    }
    for row in rows {
        items = read_row(items, stored, row);
    }
    Ok(items)
}

/// Writes an item at each place of a view, in row-major order, by the longest rows that the axes allow.
///
/// <details><summary>Contract (proved)</summary>
///
/// ```text
/// requires within: LiesWithin (length stored.old) view.now
/// requires count: size view.now.shape ≡ length items.now
/// ensures AllPairs (λ one other. one ≢ other) (view_places RowMajor view.now) →
///     HasWritten (view_places RowMajor view.now) items.now stored.old stored.new
/// ```
/// [How to read it](crate::contracts)
/// </details>
#[inline]
pub(crate) fn write_view<T: Copy, D: Lengths>(stored: &mut [T], view: &Strided<D>, items: &[T]) {
    let mut left = items;
    for row in view.joined_rows(Order::RowMajor) {
        let (these, others) = left.split_at(row.len);
        write_row(stored, row, these);
        left = others;
    }
}

/// Copies of the items at the places of rows, one row after another.
///
/// <details><summary>Contract (proved)</summary>
///
/// ```text
/// requires All (λ row. AreInBounds (length stored.now) (places_of row))
///     (even_rows rows.start rows.step rows.len rows.count (signed_reading rows.stride))
/// ensures items: IfOk result (λ v. map Some v.items ≡ map (item_at_place stored.now)
///     (rows_places (even_rows rows.start rows.step rows.len rows.count (signed_reading rows.stride))))
/// ensures memory: length (rows_places (even_rows
///     rows.start rows.step rows.len rows.count (signed_reading rows.stride))) ≡ 0 → IsOk result
/// ```
/// [How to read it](crate::contracts)
/// </details>
#[inline(always)]
pub(crate) fn read_rows<T: Copy>(rows: EvenRows, stored: &[T]) -> Result<Vec<T>, AllocError> {
    let mut items = Vec::fallible_with_capacity(rows.size())?;
    for number in 0..rows.count {
        items = push_row(items, stored, rows.row(number));
    }
    Ok(items)
}

/// Writes an item at each place of rows, one row after another.
///
/// <details><summary>Contract (proved)</summary>
///
/// ```text
/// requires in_bounds: All (λ row. AreInBounds (length stored.old) (places_of row))
///     (even_rows rows.start rows.step rows.len rows.count (signed_reading rows.stride))
/// requires count: length (rows_places (even_rows
///     rows.start rows.step rows.len rows.count (signed_reading rows.stride))) ≡ length items.now
/// ensures AllPairs (λ one other. one ≢ other)
///     (rows_places (even_rows rows.start rows.step rows.len rows.count (signed_reading rows.stride))) →
///     HasWritten (rows_places (even_rows rows.start rows.step rows.len rows.count (signed_reading rows.stride)))
///     items.now stored.old stored.new
/// ```
/// [How to read it](crate::contracts)
/// </details>
#[inline(always)]
pub(crate) fn write_rows<T: Copy>(stored: &mut [T], rows: EvenRows, items: &[T]) {
    let mut left = items;
    for number in 0..rows.count {
        let (these, others) = left.split_at(rows.len);
        write_row(stored, rows.row(number), these);
        left = others;
    }
}

/// Copies of the items at the places of rows that lie at an offset from these, one row after another. The rows have `count` places.
///
/// <details><summary>Contract (proved)</summary>
///
/// ```text
/// requires starts: All (CanMove offset) rows.now
/// requires in_bounds: All (λ row. AreInBounds (length stored.now) (places_of row)) (moved_rows offset rows.now)
/// requires count: count ≡ length (rows_places (moved_rows offset rows.now))
/// ensures items: IfOk result (λ v. map Some v.items
///     ≡ map (item_at_place stored.now) (rows_places (moved_rows offset rows.now)))
/// ensures memory: count ≡ 0 → IsOk result
/// ```
/// [How to read it](crate::contracts)
/// </details>
#[inline(always)]
pub(crate) fn read_moved_rows<T: Copy>(
    rows: &[Row],
    offset: isize,
    count: usize,
    stored: &[T],
) -> Result<Vec<T>, AllocError> {
    let mut items = Vec::fallible_with_capacity(count)?;
    for row in rows {
        items = push_row(items, stored, row_at_offset(*row, offset));
    }
    Ok(items)
}

/// Writes an item at each place of rows that lie at an offset from these, one row after another.
///
/// <details><summary>Contract (proved)</summary>
///
/// ```text
/// requires starts: All (CanMove offset) rows.now
/// requires in_bounds: All (λ row. AreInBounds (length stored.old) (places_of row)) (moved_rows offset rows.now)
/// requires count: length (rows_places (moved_rows offset rows.now)) ≡ length items.now
/// ensures AllPairs (λ one other. one ≢ other) (rows_places (moved_rows offset rows.now)) →
///     HasWritten (rows_places (moved_rows offset rows.now)) items.now stored.old stored.new
/// ```
/// [How to read it](crate::contracts)
/// </details>
#[inline(always)]
pub(crate) fn write_moved_rows<T: Copy>(stored: &mut [T], rows: &[Row], offset: isize, items: &[T]) {
    let mut left = items;
    for row in rows {
        let moved = row_at_offset(*row, offset);
        let (these, others) = left.split_at(moved.len);
        write_row(stored, moved, these);
        left = others;
    }
}

/// The row at an offset from another one.
///
/// <details><summary>Contract (proved)</summary>
///
/// ```text
/// requires CanMove offset row
/// ensures result ≡ moved_row offset row
/// ```
/// [How to read it](crate::contracts)
/// </details>
#[inline(always)]
fn row_at_offset(row: Row, offset: isize) -> Row {
    Row { start: place_at(row.start, offset), ..row }
}

/// Appends the items at places to a list with room for them.
///
/// <details><summary>Contract (proved)</summary>
///
/// ```text
/// requires in_bounds: All (IsInBounds (length stored.now)) places
/// requires room: vec_len items + length places ≤ vec_capacity items
/// ensures items: map Some result.items ≡ map Some items.items ++ map (item_at_place stored.now) places.entry
/// ```
/// [How to read it](crate::contracts)
/// </details>
#[inline(always)]
fn read_places<T: Copy>(mut items: Vec<T>, stored: &[T], places: Places<'_>) -> Vec<T> {
    for place in places {
        items.push_reserved(stored[place]);
    }
    items
}

/// Whether a row is copied as a whole: its places are neighbours, and enough of them.
///
/// <details><summary>Contract (proved)</summary>
///
/// ```text
/// ensures IsTrue result → row.stride ≡ pos 1
/// ```
/// [How to read it](crate::contracts)
/// </details>
#[inline]
fn is_copied(row: Row) -> bool {
    row.stride == 1 && row.len >= WORTH_A_COPY
}

/// The place of a row after another one.
///
/// <details><summary>Contract (proved)</summary>
///
/// ```text
/// requires first: place < 2 ^ 63
/// requires in_bounds: IsInBounds (2 ^ 63) (pos place +ℤ row.stride)
/// ensures pos result ≡ pos place +ℤ row.stride
/// ```
/// [How to read it](crate::contracts)
/// </details>
#[inline]
fn place_after(row: Row, place: usize) -> usize {
    place_at(place, row.stride)
}

/// Appends the items at the places of a row to a list with room for them. It stays a call, so that its loop keeps more in
/// registers.
///
/// <details><summary>Contract (proved)</summary>
///
/// ```text
/// requires in_bounds: AreInBounds (length stored.now) (row_places row.start row.stride row.len)
/// requires room: vec_len items + row.len ≤ vec_capacity items
/// ensures items: map Some result.items ≡ map Some items.items
///     ++ map (item_at_place stored.now) (row_places row.start row.stride row.len)
/// ensures len: vec_len result ≡ vec_len items + row.len
/// ensures capacity: vec_capacity items ≤ vec_capacity result
/// ```
/// [How to read it](crate::contracts)
/// </details>
#[inline(never)]
fn read_row<T: Copy>(items: Vec<T>, stored: &[T], row: Row) -> Vec<T> {
    push_row(items, stored, row)
}

/// Appends the items at the places of a row to a list with room for them. The list is passed by value: through a
/// reference its length would be written at each place.
///
/// <details><summary>Contract (proved)</summary>
///
/// ```text
/// requires in_bounds: AreInBounds (length stored.now) (row_places row.start row.stride row.len)
/// requires room: vec_len items + row.len ≤ vec_capacity items
/// ensures items: map Some result.items ≡ map Some items.items
///     ++ map (item_at_place stored.now) (row_places row.start row.stride row.len)
/// ensures len: vec_len result ≡ vec_len items + row.len
/// ensures capacity: vec_capacity items ≤ vec_capacity result
/// ```
/// [How to read it](crate::contracts)
/// </details>
#[inline(always)]
fn push_row<T: Copy>(mut items: Vec<T>, stored: &[T], row: Row) -> Vec<T> {
    let start = row.start;
    let len = row.len;
    if len == 0 {
        return items;
    }
    if is_copied(row) {
        // No allocation, since the list has room.
        let _ = items.fallible_extend_from_slice(&stored[start..start + len]);
        return items;
    }
    // The first item apart: so no step is taken from the last one, past which there may be no place.
    items.push_reserved(stored[start]);
    let mut place = start;
    for _coordinate in 1..len {
        place = place_after(row, place);
        items.push_reserved(stored[place]);
    }
    items
}

/// Writes items at the first places of a row, which has as many or more.
///
/// <details><summary>Contract (proved)</summary>
///
/// ```text
/// requires AreInBounds (length stored.old) (row_places row.start row.stride (length items.now))
/// ensures AllPairs (λ one other. one ≢ other)
///     (row_places row.start row.stride (length items.now)) →
///     HasWritten (row_places row.start row.stride (length items.now))
///     items.now stored.old stored.new
/// ```
/// [How to read it](crate::contracts)
/// </details>
#[inline(always)]
fn write_row<T: Copy>(stored: &mut [T], row: Row, items: &[T]) {
    let start = row.start;
    let Some((first, others)) = items.split_first() else {
        return;
    };
    if is_copied(row) {
        stored[start..start + items.len()].copy_from_slice(items);
        return;
    }
    // The first item apart, as they are read.
    stored[start] = *first;
    let mut place = start;
    for item in others {
        place = place_after(row, place);
        stored[place] = *item;
    }
}
