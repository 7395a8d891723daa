// Made by `rust/erase` of `crates/nd_owned/src/ready.rt`: edit that.
//! A slice that was checked once on a layout, to be moved along the axes.

use crate::lent::nd_owned::one_or_many::OneOrMany;
use crate::memory::AllocError;
use crate::memory::prelude::{FallibleVec, Vec};
use crate::ndarray_layout::{
    AxisElems, Fit, IxDyn, LayoutError, Lengths, Order, Row, ShapeError, SliceElems, SliceInfoElem, Strided,
    index_offset, is_index, resolve_elem,
};

/// A slice of the arrays of one layout, checked once, to be moved along the axes: what `OwnedArray::ready` returns, for
/// many tiles of one shape.
pub struct ReadySlice<D: Lengths> {
    view: Strided<D>,
    elems: OneOrMany<SliceInfoElem>,
    // By how many coordinates along each axis it can be moved, 0 among them.
    moves: D,
    // The rows of the slice where it wasn't moved, and how many places they have.
    rows: OneOrMany<Row>,
    count: usize,
}

/// By how many coordinates a slice of a view can be moved along each axis. Errors: out of memory.
///
/// <details><summary>Contract (proved)</summary>
///
/// ```text
/// requires argument_fault Strict view.now.shape elems.now ≡ None
/// ensures fault: shape_fault result ≡ None
/// ensures moves: IfOk result (λ counts. D.list counts ≡ moves elems.now view.now.shape)
/// ensures memory: NeedsNoMemory D.NDIM (length view.now.shape) → IsOk result
/// ```
/// [How to read it](crate::contracts)
/// </details>
#[inline]
fn moves_of<D: Lengths>(view: &Strided<D>, elems: &[SliceInfoElem]) -> Result<D, LayoutError> {
    let shape = view.dim().slice();
    let mut counts = D::zeros(shape.len())?;
    write_moves(counts.slice_mut(), shape, elems)?;
    Ok(counts)
}

/// Writes by how many coordinates each element for an axis can be moved.
///
/// <details><summary>Contract (proved)</summary>
///
/// ```text
/// requires lens_fit: All (λ len. len < 2 ^ 63) shape.now
/// requires fits: argument_fault Strict shape.now elems.now ≡ None
/// requires room: length counts.old ≡ length (axis_elems shape.now elems.now)
/// ensures fault: IsOk result
/// ensures moves: counts.new ≡ moves elems.now shape.now
/// ```
/// [How to read it](crate::contracts)
/// </details>
#[inline]
fn write_moves(counts: &mut [usize], shape: &[usize], elems: &[SliceInfoElem]) -> Result<(), ShapeError> {
    for (axis, (len, elem)) in AxisElems::new(shape, elems).enumerate() {
        let range = resolve_elem(len, elem, Fit::Strict)?;
        counts[axis] = len - range.end + 1;
    }
    Ok(())
}

/// The longest rows that the axes of a view allow, one after another. Errors: out of memory, never where there is at most one axis, so at
/// most one row.
///
/// <details><summary>Contract (proved)</summary>
///
/// ```text
/// ensures places: IfOk result (λ list. rows_places (items_of list) ≡ view_places RowMajor view.now)
/// ensures some: IfOk result (λ list. All (λ row. 0 < row.len) (items_of list))
/// ensures memory: length view.now.shape ≤ 1 → IsOk result
/// ```
/// [How to read it](crate::contracts)
/// </details>
#[inline]
fn list_rows<D: Lengths>(view: &Strided<D>) -> Result<OneOrMany<Row>, AllocError> {
    let mut left = view.joined_rows(Order::RowMajor);
    let count = left.len();
    let Some(first) = left.next() else {
        return Ok(OneOrMany::Many(Vec::new()));
    };
    if count == 1 {
        return Ok(OneOrMany::One(first));
    }
    let mut rows = Vec::fallible_with_capacity(count)?;
    rows.push_reserved(first);
    for row in left {
        rows.push_reserved(row);
    }
    Ok(OneOrMany::Many(rows))
}

/// Whether two lists of strides stand for the same numbers.
///
/// <details><summary>Contract (proved)</summary>
///
/// ```text
/// requires one_fits: (k : ℕ) → slice_index one.now k < 2 ^ 64
/// requires other_fits: (k : ℕ) → slice_index other.now k < 2 ^ 64
/// ensures IsTrue result ↔ (all_signed one.now ≡ all_signed other.now)
/// ```
/// [How to read it](crate::contracts)
/// </details>
#[inline(always)]
fn are_same_strides(one: &[usize], other: &[usize]) -> bool {
    one == other
}

impl<D: Lengths> ReadySlice<D> {
    /// The slice on a layout. Errors: those of `check_slice` on the shape, then out of memory, never of a slice of at most one element.
    ///
    /// <details><summary>Contract (proved)</summary>
    ///
    /// ```text
    /// ensures fault: shape_fault result ≡ argument_fault Strict view.now.shape (S.list slices.now)
    /// ensures layout: IfOk result (λ ready. ready.view ≡ view.now)
    /// ensures slice: IfOk result (λ ready. ready.elems ≡ S.list slices.now)
    /// ensures memory: argument_fault Strict view.now.shape (S.list slices.now) ≡ None
    ///     → length (S.list slices.now) ≤ 1 → IsOk result
    /// ```
    /// [How to read it](crate::contracts)
    /// </details>
    #[inline]
    pub(crate) fn new<S: SliceElems>(view: &Strided<D>, slices: &S) -> Result<Self, LayoutError> {
        let part: Strided<IxDyn> = view.slice(slices, Fit::Strict)?;
        let count = part.len();
        let rows = list_rows(&part)?;
        let moves = moves_of(view, slices.elems())?;
        let elems = OneOrMany::copy_of(slices.elems())?;
        let view = view.duplicate()?;
        Ok(ReadySlice { view, elems, moves, rows, count })
    }

    /// The slice, as it was given.
    ///
    /// Of `..2,..2` on `[3,4]`: these two ranges. The project's own.
    ///
    /// # Examples
    ///
    /// ```
    /// use ndarray_layout::{Ix2, LayoutError, OwnedArray, s};
    ///
    /// # fn main() -> Result<(), LayoutError> {
    /// let table = OwnedArray::from_shape_vec(Ix2(3, 4), (0..12).collect())?;
    /// assert_eq!(table.ready(&s![..2, ..2])?.elems(), &*s![..2, ..2]);
    /// # Ok(())
    /// # }
    /// ```
    ///
    /// <details><summary>Contract (proved)</summary>
    ///
    /// ```text
    /// ensures result.now ≡ self.now.elems
    /// ```
    /// [How to read it](crate::contracts)
    /// </details>
    #[must_use]
    #[inline]
    pub fn elems(&self) -> &[SliceInfoElem] {
        self.elems.as_slice()
    }

    /// By how many coordinates the slice can be moved along each axis, 0 among them.
    ///
    /// Where its range stops before `end` on an axis of `len` coordinates, that is `len - end + 1`, also where it picks nothing. An
    /// index has the range of its one coordinate.
    ///
    /// Of `..2,..2` on `[3,4]`: `[2,3]`, so by 0 or 1 along the first axis. Of `..` on `[0]`: `[1]`, so by 0 alone. What ndarray's
    /// `windows` has as its shape.
    ///
    /// # Examples
    ///
    /// ```
    /// use ndarray_layout::{Ix2, LayoutError, OwnedArray, s};
    ///
    /// # fn main() -> Result<(), LayoutError> {
    /// let table = OwnedArray::from_shape_vec(Ix2(3, 4), (0..12).collect())?;
    /// assert_eq!(table.ready(&s![..2, ..2])?.moves(), &Ix2(2, 3));
    /// assert_eq!(table.ready(&s![-1, ..;-1])?.moves(), &Ix2(1, 1));
    /// let empty = OwnedArray::from_shape_vec(Ix2(3, 0), Vec::<u8>::new())?;
    /// assert_eq!(empty.ready(&s![..2, ..])?.moves(), &Ix2(2, 1));
    /// # Ok(())
    /// # }
    /// ```
    ///
    /// <details><summary>Contract (proved)</summary>
    ///
    /// ```text
    /// ensures D.list result.now ≡ moves self.now.elems self.now.view.shape
    /// ```
    /// [How to read it](crate::contracts)
    /// </details>
    #[must_use]
    #[inline]
    pub fn moves(&self) -> &D {
        &self.moves
    }

    /// Whether it was checked on this layout.
    ///
    /// <details><summary>Contract (proved)</summary>
    ///
    /// ```text
    /// ensures IsTrue result ↔ (self.now.view ≡ view.now)
    /// ```
    /// [How to read it](crate::contracts)
    /// </details>
    #[inline(always)]
    pub(crate) fn is_of(&self, view: &Strided<D>) -> bool {
        let own = self.view.strides().slice();
        let other = view.strides().slice();
        self.view.start() == view.start() && self.view.dim().equal(view.dim()) && are_same_strides(own, other)
    }

    /// How far the slice moves by an index, in elements, or 0 where it picks nothing; `None` where it can't be moved so.
    ///
    /// <details><summary>Contract (proved)</summary>
    ///
    /// ```text
    /// ensures found: IsSome result
    ///     ↔ IsTrue (is_index_of_shape (moves self.now.elems self.now.view.shape) (D.list by.now))
    /// ensures offset: IfSome result (λ offset. IsOffset self.now (D.list by.now) offset)
    /// ```
    /// [How to read it](crate::contracts)
    /// </details>
    #[inline(always)]
    pub(crate) fn offset(&self, by: &D) -> Option<isize> {
        if !is_index(self.moves.slice(), by.slice()) {
            return None;
        }
        // (then `by` may be no index of the shape, and its offset no `isize`)
        if self.rows.is_empty() {
            return Some(0);
        }
        Some(index_offset(by.slice(), self.view.strides().slice()))
    }

    /// The rows of the slice where it wasn't moved.
    ///
    /// <details><summary>Contract (proved)</summary>
    ///
    /// ```text
    /// ensures fits: argument_fault Strict self.now.view.shape self.now.elems ≡ None
    /// ensures places: rows_places (items_of result.now)
    ///     ≡ view_places RowMajor (slice_of Strict self.now.elems self.now.view)
    /// ensures some: All (λ row. 0 < row.len) (items_of result.now)
    /// ```
    /// [How to read it](crate::contracts)
    /// </details>
    #[inline(always)]
    pub(crate) fn rows(&self) -> &OneOrMany<Row> {
        &self.rows
    }

    /// How many items it picks.
    ///
    /// <details><summary>Contract (proved)</summary>
    ///
    /// ```text
    /// ensures result ≡ length (view_places RowMajor (slice_of Strict self.now.elems self.now.view))
    /// ```
    /// [How to read it](crate::contracts)
    /// </details>
    #[inline(always)]
    pub(crate) fn count(&self) -> usize {
        self.count
    }
}
