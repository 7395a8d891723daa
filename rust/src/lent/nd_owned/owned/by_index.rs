// Made by `rust/erase` of `crates/nd_owned/src/owned/by_index.rt`: edit that.
//! What a function returns for each index of a shape.

use crate::lent::nd_owned::owned::OwnedArray;
use crate::memory::AllocError;
use crate::memory::prelude::{FallibleVec, Vec};
use crate::ndarray_layout::{Dimension, ErrorKind, LayoutError, Lengths, advance_row_major, from_kind};

/// Appends what a function returns for an index and those after it in its row to a list with room for it.
///
/// <details><summary>Contract (proved)</summary>
///
/// ```text
/// requires axes: 0 < length (D.list index.now)
/// requires callable: CallableAtIndices F.FnMut D.Pattern.lens (rest_of_row (D.list index.now) len) f
/// requires room: vec_len made + length (rest_of_row (D.list index.now) len) ≤ vec_capacity made
/// ensures pushed: IfOk result (λ (list, g). HasPushed (CalledAtIndex F.FnMut D.Pattern.lens) f
///     (map Some (rest_of_row (D.list index.now) len)) made.items list.items g)
/// ensures len: IfOk result (λ (list, g). vec_len list ≡ vec_len made + length (rest_of_row (D.list index.now) len))
/// ensures capacity: IfOk result (λ (list, g). vec_capacity made ≤ vec_capacity list)
/// ```
/// [How to read it](crate::contracts)
/// </details>
#[inline(always)]
fn push_row<T: Sized, D: Dimension, F: FnMut(D::Pattern) -> T>(
    mut made: Vec<T>,
    mut f: F,
    index: &D,
    len: usize,
) -> Result<(Vec<T>, F), AllocError> {
    let last = index.ndim() - 1;
    for coordinate in index.slice()[last]..len {
        let mut at = index.duplicate()?;
        at.slice_mut()[last] = coordinate;
        made.push_reserved(f(at.into_pattern()));
    }
    Ok((made, f))
}

/// Moves an index of a shape to the first one of the next row, and returns whether there is one.
///
/// <details><summary>Contract (proved)</summary>
///
/// ```text
/// requires axes: 0 < length (D.list dim.now)
/// requires here: is_index (D.list dim.now) (D.list index.old) ≡ true
/// ensures next: IsTrue result → IsNextRow (D.list dim.now) (D.list index.old) (D.list index.new)
/// ensures end: result ≡ false → size (D.list dim.now) ≤ next_row_of (D.list dim.now) (D.list index.old)
/// ```
/// [How to read it](crate::contracts)
/// </details>
#[inline(always)]
fn next_row<D: Lengths>(dim: &D, index: &mut D) -> bool {
    let last = dim.ndim() - 1;
    index.slice_mut()[last] = dim.slice()[last] - 1;
    advance_row_major(dim.slice(), index.slice_mut())
}

/// Appends what a function returns for each index of a shape that has one, in row-major order, to a list with room for it.
///
/// <details><summary>Contract (proved)</summary>
///
/// ```text
/// requires axes: 0 < length (D.list dim.now)
/// requires some: is_empty (D.list dim.now) ≡ false
/// requires callable: CallableAtIndices F.FnMut D.Pattern.lens (indices_in RowMajor (D.list dim.now)) f
/// requires room: vec_len made + size (D.list dim.now) ≤ vec_capacity made
/// ensures IfOk result (λ list. (last : F) × HasPushed (CalledAtIndex F.FnMut D.Pattern.lens) f
///     (map Some (indices_in RowMajor (D.list dim.now))) made.items list.items last)
/// ```
/// [How to read it](crate::contracts)
/// </details>
#[inline]
fn push_rows<T: Sized, D: Dimension, F: FnMut(D::Pattern) -> T>(
    made: Vec<T>,
    f: F,
    dim: &D,
) -> Result<Vec<T>, AllocError> {
    let (mut made, mut f) = (made, f);
    let len = dim.slice()[dim.ndim() - 1];
    let mut index = D::zeros(dim.ndim())?;
    let mut has_row = true;
    while has_row {
        let (more, g) = push_row(made, f, &index, len)?;
        made = more;
        f = g;
        has_row = next_row(dim, &mut index);
    }
    Ok(made)
}

impl<T: Sized, D: Dimension> OwnedArray<T, D> {
    /// What a function returns for each index of a shape, which it is called with in row-major order, as a list.
    ///
    /// The list is allocated first, at once, and the function isn't called where this fails. The indices of a row are a loop of their own.
    ///
    /// `|(row, column)| 10 * row + column` for `[2,3]`: 0 1 2 10 11 12. The loop of ndarray's `from_shape_fn`.
    ///
    /// # Errors
    ///
    /// `Overflow` where the product of the lengths is 2^64 or more; then out of memory, never where it is 0.
    ///
    /// <details><summary>Contract (proved)</summary>
    ///
    /// ```text
    /// requires CallableAtIndices F.FnMut D.Pattern.lens (indices_in RowMajor (D.list dim.now)) f
    /// ensures fault: shape_fault result ≡ (if nat_lt (size (D.list dim.now)) (2 ^ 64) then None else Some Overflow)
    /// ensures ran: IfOk result (λ made. CallsMake (CalledAtIndex F.FnMut D.Pattern.lens) f
    ///     (map Some (indices_in RowMajor (D.list dim.now))) (map Some made.items))
    /// ensures memory: size (D.list dim.now) ≡ 0 → IsOk result
    /// ```
    /// [How to read it](crate::contracts)
    /// </details>
    #[inline]
    pub(crate) fn list_by_index<F: FnMut(D::Pattern) -> T>(dim: &D, f: F) -> Result<Vec<T>, LayoutError> {
        let Some(count) = dim.size_checked() else {
            return Err(LayoutError::Shape(from_kind(ErrorKind::Overflow)));
        };
        let made = Vec::fallible_with_capacity(count)?;
        if count == 0 {
            return Ok(made);
        }
        if dim.ndim() == 0 {
            return Ok(push_only(made, f, dim)?);
        }
        Ok(push_rows(made, f, dim)?)
    }
}

/// Appends what a function returns for the index of a shape of no axes to a list with room for it.
///
/// <details><summary>Contract (proved)</summary>
///
/// ```text
/// requires axes: D.list dim.now ≡ []
/// requires callable: CallableAtIndices F.FnMut D.Pattern.lens (indices_in RowMajor (D.list dim.now)) f
/// requires room: vec_len made < vec_capacity made
/// ensures IfOk result (λ list. (last : F) × HasPushed (CalledAtIndex F.FnMut D.Pattern.lens) f
///     (map Some (indices_in RowMajor (D.list dim.now))) made.items list.items last)
/// ```
/// [How to read it](crate::contracts)
/// </details>
#[inline]
fn push_only<T: Sized, D: Dimension, F: FnMut(D::Pattern) -> T>(
    mut made: Vec<T>,
    mut f: F,
    dim: &D,
) -> Result<Vec<T>, AllocError> {
    let index = dim.duplicate()?;
    made.push_reserved(f(index.into_pattern()));
    Ok(made)
}
