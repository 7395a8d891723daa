// Made by `rust/erase` of `crates/nd_owned/src/even_rows.rt`: edit that.
//! What a slice picks of a view of two axes, as rows that lie a stride apart: a few numbers, and no view.

use crate::ndarray_layout::{
    Fit, Lengths, Row, ShapeError, Slice, SliceInfoElem, Strided, coordinate_of, do_slice, signed, stride_offset,
};

/// Rows of places that lie evenly, all of one length and each a stride after the one before it.
#[derive(Clone, Copy, Debug)]
pub(crate) struct EvenRows {
    /// The start of the first row.
    pub(crate) start: usize,
    /// From a place of a row to the next one, in elements.
    pub(crate) step: isize,
    /// How many places each row has.
    pub(crate) len: usize,
    /// How many rows.
    pub(crate) count: usize,
    /// From the start of a row to that of the next one, in elements, kept as the `usize` of the same bits.
    pub(crate) stride: usize,
}

impl EvenRows {
    /// How many places the rows have.
    ///
    /// <details><summary>Contract (proved)</summary>
    ///
    /// ```text
    /// ensures result ≡ length (rows_places (even_rows self.start self.step self.len self.count (signed_reading self.stride)))
    /// ```
    /// [How to read it](crate::contracts)
    /// </details>
    #[inline(always)]
    pub(crate) fn size(self) -> usize {
        self.count * self.len
    }

    /// The row of a number.
    ///
    /// <details><summary>Contract (proved)</summary>
    ///
    /// ```text
    /// requires number < self.count
    /// ensures start: pos result.start ≡ pos self.start +ℤ (pos number *ℤ signed_reading self.stride)
    /// ensures stride: result.stride ≡ self.step
    /// ensures len: result.len ≡ self.len
    /// ```
    /// [How to read it](crate::contracts)
    /// </details>
    #[inline(always)]
    pub(crate) fn row(self, number: usize) -> Row {
        Row { start: place_at(self.start, stride_offset(number, self.stride)), stride: self.step, len: self.len }
    }
}

/// The place at an offset from another one.
///
/// <details><summary>Contract (proved)</summary>
///
/// ```text
/// requires first: start ≤ limit
/// requires there: IsPlace (pos start +ℤ offset)
/// ensures pos result ≡ pos start +ℤ offset
/// ```
/// [How to read it](crate::contracts)
/// </details>
#[inline(always)]
pub(crate) fn place_at(start: usize, offset: isize) -> usize {
    (start as isize + offset) as usize
}

/// The rows that a range of rows and a range of columns pick of a view of two axes. `None` where they pick nothing, and where
/// another way takes less time: where the rows are one place long, or each goes on where the one before it ends, so that their places
/// make a longer row; and where many rows have few places.
///
/// `lens` and `strides` are those of the view. Errors: that of the first range with one.
///
/// <details><summary>Contract (proved)</summary>
///
/// ```text
/// requires IsView (view_of_two start lens strides)
/// ensures fault: OnErr result (result_err result ≡ argument_fault Strict (lens.0 ∷ lens.1 ∷ [])
///     (range_elem one ∷ range_elem other ∷ []))
/// ensures fits: IfOk result (λ found. IfSome found (λ rows.
///     argument_fault Strict (lens.0 ∷ lens.1 ∷ []) (range_elem one ∷ range_elem other ∷ []) ≡ None))
/// ensures places: IfOk result (λ found. IfSome found (λ rows.
///     rows_places (even_rows rows.start rows.step rows.len rows.count (signed_reading rows.stride))
///     ≡ view_places RowMajor (slice_of Strict (range_elem one ∷ range_elem other ∷ [])
///     (view_of_two start lens strides))))
/// ```
/// [How to read it](crate::contracts)
/// </details>
#[inline(always)]
fn rows_of_ranges(
    start: usize,
    lens: (usize, usize),
    strides: (usize, usize),
    one: Slice,
    other: Slice,
) -> Result<Option<EvenRows>, ShapeError> {
    let (mut count, mut across) = (lens.0, strides.0);
    let (mut len, mut along) = (lens.1, strides.1);
    let down = do_slice(&mut count, &mut across, one, Fit::Strict)?;
    let right = do_slice(&mut len, &mut along, other, Fit::Strict)?;
    if count == 0 || len == 0 {
        return Ok(None);
    }
    if count > 1 && (len == 1 || along.wrapping_mul(len) == across) {
        return Ok(None);
    }
    if len < 4 && count > 32 {
        return Ok(None);
    }
    let start = place_at(start, down + right);
    Ok(Some(EvenRows { start, step: signed(along), len, count, stride: across }))
}

/// The row that an index and a range of columns pick of a view of two axes; `None` where they pick nothing.
///
/// `lens` and `strides` are those of the view. Errors: that of the index, then that of the range.
///
/// <details><summary>Contract (proved)</summary>
///
/// ```text
/// requires IsView (view_of_two start lens strides)
/// ensures fault: OnErr result (result_err result ≡ argument_fault Strict (lens.0 ∷ lens.1 ∷ [])
///     (SliceInfoElem.Index index ∷ range_elem range ∷ []))
/// ensures fits: IfOk result (λ found. IfSome found (λ rows. argument_fault Strict (lens.0 ∷ lens.1 ∷ [])
///     (SliceInfoElem.Index index ∷ range_elem range ∷ []) ≡ None))
/// ensures places: IfOk result (λ found. IfSome found (λ rows.
///     rows_places (even_rows rows.start rows.step rows.len rows.count (signed_reading rows.stride))
///     ≡ view_places RowMajor (slice_of Strict (SliceInfoElem.Index index ∷ range_elem range ∷ [])
///     (view_of_two start lens strides))))
/// ```
/// [How to read it](crate::contracts)
/// </details>
#[inline(always)]
fn row_of_index(
    start: usize,
    lens: (usize, usize),
    strides: (usize, usize),
    index: isize,
    range: Slice,
) -> Result<Option<EvenRows>, ShapeError> {
    let (mut len, mut along) = (lens.1, strides.1);
    let coordinate = coordinate_of(lens.0, index)?;
    let down = stride_offset(coordinate, strides.0);
    let right = do_slice(&mut len, &mut along, range, Fit::Strict)?;
    if len == 0 {
        return Ok(None);
    }
    let start = place_at(start, down + right);
    Ok(Some(EvenRows { start, step: signed(along), len, count: 1, stride: 0 }))
}

/// The range that an element of an argument is, if it is one.
///
/// <details><summary>Contract (proved)</summary>
///
/// ```text
/// ensures IfSome result (λ range. elem ≡ range_elem range)
/// ```
/// [How to read it](crate::contracts)
/// </details>
#[inline(always)]
fn range_of(elem: SliceInfoElem) -> Option<Slice> {
    match elem {
        SliceInfoElem::Slice { start, end, step } => Some(Slice { start, end, step }),
        _ => None,
    }
}

/// The elements of an argument of two of which the second is a range; `None` for any other.
///
/// <details><summary>Contract (proved)</summary>
///
/// ```text
/// ensures IfSome result (λ (one, range). elems.now ≡ one ∷ range_elem range ∷ [])
/// ```
/// [How to read it](crate::contracts)
/// </details>
#[inline(always)]
fn elem_and_range(elems: &[SliceInfoElem]) -> Option<(SliceInfoElem, Slice)> {
    let [one, other] = elems else {
        return None;
    };
    Some((*one, range_of(*other)?))
}

/// The two numbers of a list of two; `None` for any other.
///
/// <details><summary>Contract (proved)</summary>
///
/// ```text
/// ensures IfSome result (λ (one, other). list.now ≡ one ∷ other ∷ [])
/// ```
/// [How to read it](crate::contracts)
/// </details>
#[inline(always)]
fn two_of(list: &[usize]) -> Option<(usize, usize)> {
    let [one, other] = list else {
        return None;
    };
    Some((*one, *other))
}

/// The rows that a slice picks of a view, where it is a range or an index and a range of a view of two axes (`rows_of_ranges`,
/// `row_of_index`); `None` for any other.
///
/// Errors: those of `check_slice` on the shape.
///
/// <details><summary>Contract (proved)</summary>
///
/// ```text
/// ensures fault: OnErr result (result_err result ≡ argument_fault Strict view.now.shape elems.now)
/// ensures fits: IfOk result (λ found. IfSome found (λ rows. argument_fault Strict view.now.shape elems.now ≡ None))
/// ensures places: IfOk result (λ found. IfSome found (λ rows.
///     rows_places (even_rows rows.start rows.step rows.len rows.count (signed_reading rows.stride))
///     ≡ view_places RowMajor (slice_of Strict elems.now view.now)))
/// ensures is_view: IsView view.now
/// ```
/// [How to read it](crate::contracts)
/// </details>
#[inline(always)]
pub(crate) fn even_rows_of<D: Lengths>(
    view: &Strided<D>,
    elems: &[SliceInfoElem],
) -> Result<Option<EvenRows>, ShapeError> {
    let start = view.start();
    let Some((one, range)) = elem_and_range(elems) else {
        return Ok(None);
    };
    let Some(lens) = two_of(view.dim().slice()) else {
        return Ok(None);
    };
    let Some(strides) = two_of(view.strides().slice()) else {
        return Ok(None);
    };
    match one {
        SliceInfoElem::Slice { start: from, end, step } => {
            let first = Slice { start: from, end, step };
            rows_of_ranges(start, lens, strides, first, range)
        }
        SliceInfoElem::Index(index) => row_of_index(start, lens, strides, index, range),
        SliceInfoElem::NewAxis => Ok(None),
    }
}
