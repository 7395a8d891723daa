// Made by `rust/erase` of `crates/nd_loops/src/writing.rt`: edit that.
//! Copies of the items of rows, written over those of other rows.

use crate::lent::nd_access::{Cells, LentRow, LentRows, Reader, place_in_row};
use crate::lent::nd_loops::few::by_few;
use crate::ndarray_layout::{Lengths, Order, Row, Rows, Strided};

/// Writes a copy of each item of one row over that of the same coordinate of another of the same length.
///
/// <details><summary>Contract (proved)</summary>
///
/// ```text
/// requires row: OwnsRow cells.old.marks row
/// requires count: row.len ≡ source.now.row.len
/// ensures copied: HasSet (places_of row) (row_items source.now) cells.old.items cells.new.items
/// ensures count: length cells.new.items ≡ length cells.old.items
/// ```
/// [How to read it](crate::contracts)
/// </details>
#[inline(always)]
fn copy_places<T: Sized + Clone>(cells: &mut Cells<'_, T>, row: Row, source: &LentRow<'_, T>) {
    for coordinate in 0..row.len {
        let stored = cells.item_mut(place_in_row(row, coordinate));
        let item = source.item(coordinate);
        stored.clone_from(item);
    }
}

/// Writes a copy of each item of one row over that of the same coordinate of another of the same length.
///
/// <details><summary>Contract (proved)</summary>
///
/// ```text
/// requires row: OwnsRow cells.old.marks row
/// requires count: row.len ≡ source.now.row.len
/// ensures copied: HasSet (places_of row) (row_items source.now) cells.old.items cells.new.items
/// ensures count: length cells.new.items ≡ length cells.old.items
/// ```
/// [How to read it](crate::contracts)
/// </details>
#[inline]
// (not `inline(always)`: by a parameter of its own rustc knows that no write changes the pointer, and the loop reads it once)
fn copy_apart<T: Sized + Clone>(cells: &mut Cells<'_, T>, row: Row, source: &LentRow<'_, T>) {
    copy_places(cells, row, source);
}

/// Writes a copy of each item of one row over that of the same coordinate of another of the same length, of `FEW` unless that is 0:
/// as slices where both are.
///
/// <details><summary>Contract (proved)</summary>
///
/// ```text
/// requires few: 0 < FEW → FEW ≡ row.len
/// requires some: 0 < row.len
/// requires row: OwnsRow cells.old.marks row
/// requires count: row.len ≡ source.now.row.len
/// ensures copied: HasSet (places_of row) (row_items source.now) cells.old.items cells.new.items
/// ensures count: length cells.new.items ≡ length cells.old.items
/// ```
/// [How to read it](crate::contracts)
/// </details>
#[inline(always)]
fn copy_row<const FEW: usize, T: Sized + Clone>(cells: &mut Cells<'_, T>, row: Row, source: &LentRow<'_, T>) {
    if FEW > 0 {
        return copy_places(cells, by_few::<FEW>(row), source);
    }
    match source.as_slice() {
        Some(items) if row.stride == 1 => {
            let stored = cells.slice_mut(row.start, row.len);
            stored.clone_from_slice(items);
        }
        _ => copy_apart(cells, row, source),
    }
}

/// Writes copies of the items of rows over those of others of the same lengths, of `FEW` each unless that is 0.
///
/// <details><summary>Contract (proved)</summary>
///
/// ```text
/// requires few: 0 < FEW → All (λ row. FEW ≡ row.len) rows
/// requires some: All (λ row. 0 < row.len) rows
/// requires rows: OwnsEachRow cells.old.marks rows
/// requires count: AllZip (λ row source. row.len ≡ source.row.len) rows sources
/// ensures copied: HasSet (rows_places rows.entry) (rows_items sources.entry) cells.old.items cells.new.items
/// ensures count: length cells.new.items ≡ length cells.old.items
/// ```
/// [How to read it](crate::contracts)
/// </details>
#[inline]
fn copy_each<const FEW: usize, T: Sized + Clone>(cells: &mut Cells<'_, T>, rows: Rows<'_>, sources: LentRows<'_, T>) {
    let mut sources = sources;
    for row in rows {
        if let Some(source) = sources.next() {
            copy_row::<FEW, T>(cells, row, &source);
        }
    }
}

/// Writes copies of the items of rows over those of others of the same lengths.
///
/// <details><summary>Contract (proved)</summary>
///
/// ```text
/// requires some: All (λ row. 0 < row.len) rows
/// requires rows: OwnsEachRow cells.old.marks rows
/// requires count: AllZip (λ row source. row.len ≡ source.row.len) rows sources
/// ensures copied: HasSet (rows_places rows.entry) (rows_items sources.entry) cells.old.items cells.new.items
/// ensures count: length cells.new.items ≡ length cells.old.items
/// ```
/// [How to read it](crate::contracts)
/// </details>
#[inline(always)]
fn copy_rows<T: Sized + Clone>(cells: &mut Cells<'_, T>, rows: Rows<'_>, sources: LentRows<'_, T>) {
    match rows.row_len() {
        2 => copy_each::<2, T>(cells, rows, sources),
        3 => copy_each::<3, T>(cells, rows, sources),
        4 => copy_each::<4, T>(cells, rows, sources),
        _ => copy_each::<0, T>(cells, rows, sources),
    }
}

/// Writes at the place of each index of a view a copy of the item that another view of its shape has there.
///
/// <details><summary>Contract (proved)</summary>
///
/// ```text
/// requires shape: view.now.shape ≡ source.now.shape
/// requires own_view: IsView view.now
/// requires own: AreOwn cells.old.marks (view_places RowMajor view.now)
/// requires is_view: IsView source.now
/// requires items: All (IsInBounds (length items.items)) (view_places RowMajor source.now)
/// requires marked: HaveMarks items.marks (view_places RowMajor source.now)
/// ensures copied: HasSet (view_places RowMajor view.now) (map (item_at_place items.entry.items) (view_places RowMajor source.now))
///     cells.old.items cells.new.items
/// ensures count: length cells.new.items ≡ length cells.old.items
/// ```
/// [How to read it](crate::contracts)
/// </details>
#[inline(always)]
pub fn copy_view<'a, T: Sized + Clone, D: Lengths>(
    cells: &mut Cells<'_, T>,
    view: &'a Strided<D>,
    items: Reader<'a, T>,
    source: &'a Strided<D>,
) {
    let (rows, sources) = view.joined_rows_with(source, Order::RowMajor);
    copy_rows(cells, rows, LentRows::new(items, sources));
}
