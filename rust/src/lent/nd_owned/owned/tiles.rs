// Made by `rust/erase` of `crates/nd_owned/src/owned/tiles.rt`: edit that.
//! Many parts of one shape: a slice that is checked once, and moved along the axes.

use crate::lent::nd_owned::one_or_many::OneOrMany;
use crate::lent::nd_owned::owned::OwnedArray;
use crate::lent::nd_owned::ready::ReadySlice;
use crate::lent::nd_owned::rows::{read_moved_rows, write_moved_rows};
use crate::memory::AllocError;
use crate::memory::prelude::Vec;
use crate::ndarray_layout::{ErrorKind, LayoutError, Lengths, Row, ShapeError, SliceElems, Strided, from_kind};
use core::slice;

impl<T: Sized, D: Lengths> OwnedArray<T, D> {
    /// A slice that is checked once on the layout of the array, for many tiles of one shape: `items_of` and `set_items_of` move it
    /// along the axes, and check no more than by how many coordinates.
    ///
    /// Takes memory for the elements and the rows of the slice where there are several, and time for each row. It lends nothing of the
    /// array, and arrays of the same layout may share it.
    ///
    /// `..2,..2` on `[3,4]` can be moved by (0,0) to (1,2). The project's own, in place of ndarray's `windows`, which lends.
    ///
    /// # Errors
    ///
    /// Those of `check_slice` on the shape, then out of memory; never where the slice has at most one element, as `..2` on `[4]`.
    ///
    /// # Examples
    ///
    /// ```
    /// use ndarray_layout::{Ix2, LayoutError, OwnedArray, s};
    ///
    /// # fn main() -> Result<(), LayoutError> {
    /// let table = OwnedArray::from_shape_vec(Ix2(3, 4), (0..12).collect())?;
    /// let tile = table.ready(&s![..2, ..2])?;
    /// let mut sums = vec![];
    /// for row in 0..tile.moves()[0] {
    ///     for column in 0..tile.moves()[1] {
    ///         sums.push(table.items_of(&tile, &Ix2(row, column))?.iter().sum::<i32>());
    ///     }
    /// }
    /// assert_eq!(sums, [10, 14, 18, 26, 30, 34]);
    /// # Ok(())
    /// # }
    /// ```
    ///
    /// <details><summary>Contract (proved)</summary>
    ///
    /// ```text
    /// ensures fault: shape_fault result ≡ argument_fault Strict self.now.view.shape (S.list slices.now)
    /// ensures layout: IfOk result (λ ready. ready.view ≡ self.now.view)
    /// ensures slice: IfOk result (λ ready. ready.elems ≡ S.list slices.now)
    /// ensures memory: shape_fault result ≡ None → length (S.list slices.now) ≤ 1 → IsOk result
    /// ```
    /// [How to read it](crate::contracts)
    /// </details>
    #[inline]
    pub fn ready<S: SliceElems>(&self, slices: &S) -> Result<ReadySlice<D>, LayoutError> {
        ReadySlice::new(self.strided(), slices)
    }
}

/// How far a slice moves by an index on a layout, or 0 where it picks nothing. Errors: `IncompatibleLayout` where it was checked on
/// another layout, then `OutOfBounds`.
///
/// <details><summary>Contract (proved)</summary>
///
/// ```text
/// ensures layout: (ready.now.view ≡ view.now → ⊥) → result_err result ≡ Some IncompatibleLayout
/// ensures fault: ready.now.view ≡ view.now → result_err result ≡ move_fault ready.now (D.list by.now)
/// ensures same: OnOk result (ready.now.view ≡ view.now)
/// ensures index: OnOk result (IsTrue (is_index (moves ready.now.elems ready.now.view.shape) (D.list by.now)))
/// ensures offset: IfOk result (λ offset. IsOffset ready.now (D.list by.now) offset)
/// ```
/// [How to read it](crate::contracts)
/// </details>
#[inline(always)]
fn offset_on<D: Lengths>(ready: &ReadySlice<D>, view: &Strided<D>, by: &D) -> Result<isize, ShapeError> {
    if !ready.is_of(view) {
        return Err(from_kind(ErrorKind::IncompatibleLayout));
    }
    match ready.offset(by) {
        Some(offset) => Ok(offset),
        None => Err(from_kind(ErrorKind::OutOfBounds)),
    }
}

/// Copies of the items at the places of rows that lie at an offset from these, as `read_moved_rows` makes them; a single row takes no
/// loop.
///
/// <details><summary>Contract (proved)</summary>
///
/// ```text
/// requires starts: All (CanMove offset) (items_of rows.now)
/// requires in_bounds: All (λ row. AreInBounds (length stored.now) (places_of row))
///     (moved_rows offset (items_of rows.now))
/// requires count: count ≡ length (rows_places (moved_rows offset (items_of rows.now)))
/// ensures items: IfOk result (λ v. map Some v.items
///     ≡ map (item_at_place stored.now) (rows_places (moved_rows offset (items_of rows.now))))
/// ensures memory: count ≡ 0 → IsOk result
/// ```
/// [How to read it](crate::contracts)
/// </details>
#[inline(always)]
fn read_moved<T: Copy>(rows: &OneOrMany<Row>, offset: isize, count: usize, stored: &[T]) -> Result<Vec<T>, AllocError> {
    match rows {
        OneOrMany::One(row) => read_moved_rows(slice::from_ref(row), offset, count, stored),
        OneOrMany::Many(rows) => read_moved_rows(rows.as_slice(), offset, count, stored),
    }
}

/// Writes an item at each place of rows that lie at an offset from these, as `write_moved_rows` does; a single row takes no loop.
///
/// <details><summary>Contract (proved)</summary>
///
/// ```text
/// requires starts: All (CanMove offset) (items_of rows.now)
/// requires in_bounds: All (λ row. AreInBounds (length stored.old) (places_of row))
///     (moved_rows offset (items_of rows.now))
/// requires count: length (rows_places (moved_rows offset (items_of rows.now))) ≡ length items.now
/// ensures AllPairs (λ one other. one ≢ other) (rows_places (moved_rows offset (items_of rows.now))) →
///     HasWritten (rows_places (moved_rows offset (items_of rows.now))) items.now stored.old stored.new
/// ```
/// [How to read it](crate::contracts)
/// </details>
#[inline(always)]
fn write_moved<T: Copy>(stored: &mut [T], rows: &OneOrMany<Row>, offset: isize, items: &[T]) {
    match rows {
        OneOrMany::One(row) => write_moved_rows(stored, slice::from_ref(row), offset, items),
        OneOrMany::Many(rows) => write_moved_rows(stored, rows.as_slice(), offset, items),
    }
}

impl<T: Copy, D: Lengths> OwnedArray<T, D> {
    /// Copies of the items of a slice that is moved by an index, in row-major order: those that `items` returns for the slice with
    /// the coordinates of `by` added to its bounds and indices.
    ///
    /// `ready` is a slice that was checked on the layout of this array, and `by` has a coordinate below `ready.moves()` for each axis.
    ///
    /// `..2,..2` of `[3,4]` over 0 to 11, moved by (1,2): 6 7 10 11. The project's own.
    ///
    /// # Errors
    ///
    /// `IncompatibleLayout` where `ready` was checked on another layout; then `OutOfBounds` where the slice can't be moved so; then out
    /// of memory, never where it picks nothing.
    ///
    /// # Examples
    ///
    /// ```
    /// use ndarray_layout::{ErrorKind, Ix2, LayoutError, OwnedArray, from_kind, s};
    ///
    /// # fn main() -> Result<(), LayoutError> {
    /// let table = OwnedArray::from_shape_vec(Ix2(3, 4), (0..12).collect())?;
    /// let tile = table.ready(&s![..2, ..2])?;
    /// assert_eq!(table.items_of(&tile, &Ix2(1, 2))?, [6, 7, 10, 11]);
    /// assert_eq!(table.items_of(&tile, &Ix2(1, 2))?, table.items(&s![1..3, 2..4])?);
    /// let past = table.items_of(&tile, &Ix2(1, 3));
    /// assert_eq!(past, Err(from_kind(ErrorKind::OutOfBounds).into()));
    /// # Ok(())
    /// # }
    /// ```
    ///
    /// <details><summary>Contract (proved)</summary>
    ///
    /// ```text
    /// ensures layout: (ready.now.view ≡ self.now.view → ⊥) → shape_fault result ≡ Some IncompatibleLayout
    /// ensures fault: ready.now.view ≡ self.now.view → shape_fault result ≡ move_fault ready.now (D.list by.now)
    /// ensures items: IfOk result (λ v. map Some v.items ≡ map (item_at_place self.now.items)
    ///     (view_places RowMajor (slice_of Strict (ready_at ready.now (D.list by.now)) self.now.view)))
    /// ensures memory: shape_fault result ≡ None
    ///     → size (sliced_shape Strict ready.now.elems self.now.view.shape) ≡ 0 → IsOk result
    /// ```
    /// [How to read it](crate::contracts)
    /// </details>
    #[inline]
    pub fn items_of(&self, ready: &ReadySlice<D>, by: &D) -> Result<Vec<T>, LayoutError> {
        let offset = offset_on(ready, &self.view, by)?;
        let items = read_moved(ready.rows(), offset, ready.count(), self.items.as_slice())?;
        Ok(items)
    }

    /// Writes items at a slice that is moved by an index, in row-major order, as `multi_set` writes them at the slice with the coordinates
    /// of `by` added to its bounds and indices. All other items are unchanged, spare ones too.
    ///
    /// `ready` is a slice that was checked on the layout of this array, and `by` has a coordinate below `ready.moves()` for each axis.
    ///
    /// Takes no memory. 5 6 7 8 at `..2,..2` of `[3,4]` over 0 to 11, moved by (1,2): 0 1 2 3 4 5 5 6 8 9 7 8. The project's own.
    ///
    /// # Errors
    ///
    /// `IncompatibleLayout` where `ready` was checked on another layout; then `OutOfBounds` where the slice can't be moved so; then
    /// `IncompatibleShape` where there are more items or fewer than it picks. The array is unchanged after an error.
    ///
    /// # Examples
    ///
    /// ```
    /// use ndarray_layout::{ErrorKind, Ix2, LayoutError, OwnedArray, from_kind, s};
    ///
    /// # fn main() -> Result<(), LayoutError> {
    /// let mut table = OwnedArray::from_shape_vec(Ix2(3, 4), (0..12).collect())?;
    /// let tile = table.ready(&s![..2, ..2])?;
    /// table.set_items_of(&tile, &Ix2(1, 2), &[5, 6, 7, 8])?;
    /// assert_eq!(table.stored(), [0, 1, 2, 3, 4, 5, 5, 6, 8, 9, 7, 8]);
    /// let few = table.set_items_of(&tile, &Ix2(0, 0), &[0]);
    /// assert_eq!(few, Err(from_kind(ErrorKind::IncompatibleShape)));
    /// # Ok(())
    /// # }
    /// ```
    ///
    /// <details><summary>Contract (proved)</summary>
    ///
    /// ```text
    /// ensures layout: (ready.now.view ≡ self.old.view → ⊥) → result_err result ≡ Some IncompatibleLayout
    /// ensures fault: ready.now.view ≡ self.old.view
    ///     → result_err result ≡ set_fault ready.now (D.list by.now) (length items.now)
    /// ensures unchanged: OnErr result (self.new ≡ self.old)
    /// ensures view: self.new.view ≡ self.old.view
    /// ensures count: length self.new.items ≡ length self.old.items
    /// ensures written: OnOk result (IsWritten self.old.view self.new.items (record {
    ///     slice = ready_at ready.now (D.list by.now);
    ///     items = items.now;
    ///     }))
    /// ensures others: OnOk result (KeepsOthers self.old.view (record {
    ///     slice = ready_at ready.now (D.list by.now);
    ///     items = items.now;
    ///     } ∷ []) self.old.items self.new.items)
    /// ```
    /// [How to read it](crate::contracts)
    /// </details>
    #[inline]
    pub fn set_items_of(&mut self, ready: &ReadySlice<D>, by: &D, items: &[T]) -> Result<(), ShapeError> {
        let offset = offset_on(ready, &self.view, by)?;
        if ready.count() != items.len() {
            return Err(from_kind(ErrorKind::IncompatibleShape));
        }
        write_moved(self.items.as_mut_slice(), ready.rows(), offset, items);
        Ok(())
    }
}
