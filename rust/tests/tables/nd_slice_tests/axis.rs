// Made by `rust/erase` of `crates/nd_slice_tests/src/axis.rt`: edit that.
//! A slice of one axis, and the least and the greatest coordinate that it picks.

use crate::test_tables::{Reading, Words, name_of};
use ::ndarray_layout::nd_base::{signed, unsigned};
use ::ndarray_layout::nd_slice::{Fit, Slice, SliceInfoElem, do_slice, slice_min_max, to_abs_slice};

/// The slice that the next word spells.
fn slice(words: &mut Words<'_>) -> Option<Slice> {
    match words.elem()? {
        SliceInfoElem::Slice { start, end, step } => Some(Slice { start, end, step }),
        _ => None,
    }
}

/// Whether a length and a stride can be those of an axis.
///
/// <details><summary>Contract (proved)</summary>
///
/// ```text
/// ensures IsTrue result → (len < 2 ^ 63) × (reach len stride ≤ limit)
/// ```
/// [How to read it](ndarray_layout::contracts)
/// </details>
fn is_axis(len: usize, stride: isize) -> bool {
    let reach = len.saturating_sub(1) as u128 * stride.unsigned_abs() as u128;
    len <= isize::MAX as usize && reach <= isize::MAX as u128
}

/// Whether the answer is what a slice of an axis gives, and the length and the stride that the axis has afterwards.
///
/// <details><summary>Contract (proved)</summary>
///
/// ```text
/// requires len_fits: len < 2 ^ 63
/// requires span_fits: reach len stride ≤ limit
/// ```
/// [How to read it](ndarray_layout::contracts)
/// </details>
fn gives(row: &mut Reading<'_>, len: usize, stride: isize, slice: Slice, fit: Fit) -> Option<bool> {
    let (mut len, mut stride) = (len, unsigned(stride));
    let answers = match do_slice(&mut len, &mut stride, slice, fit) {
        Ok(offset) => row.answer.number()? == offset,
        Err(fault) => row.answer.is(name_of(Some(fault.kind()))),
    };
    Some(answers && row.answer.length()? == len && row.answer.number()? == signed(stride))
}

/// Whether a row of `do_slice` holds.
pub fn slice_holds(row: &mut Reading<'_>, fit: Fit) -> Option<bool> {
    let (len, stride, slice) = (row.given.length()?, row.given.number()?, slice(&mut row.given)?);
    if !is_axis(len, stride) {
        return None;
    }
    gives(row, len, stride, slice, fit)
}

/// Whether a row of `slice_min_max` holds.
pub fn ends_hold(row: &mut Reading<'_>, fit: Fit) -> Option<bool> {
    let (len, slice) = (row.given.length()?, slice(&mut row.given)?);
    if to_abs_slice(len, slice, fit).is_err() {
        return None;
    }
    match slice_min_max(len, slice, fit) {
        Some(ends) => Some((row.answer.length()?, row.answer.length()?) == ends),
        None => Some(row.answer.is("none")),
    }
}
