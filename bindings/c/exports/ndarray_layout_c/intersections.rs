// Made by `rust/erase` of `crates/ndarray_layout_c/src/intersections.rt`: edit that.
//! Two of many slices of a shape that intersect.

use crate::ndarray_layout_c::arguments::{answer_of, fit_named, is_choice};
use crate::ndarray_layout_c::elements::{FEW, RawElem, are_elems, few_elems, many_elems};
use crate::ndarray_layout_c::lists::own_view;
use crate::ndarray_layout_c::statuses::{BAD_ARGUMENT, OK, OUT_OF_MEMORY, status_of};
use crate::unwritten::{MaybeUninit, as_unwritten};
use ::ndarray_layout::memory::AllocError;
use ::ndarray_layout::memory::prelude::{FallibleVec, Vec};
use ::ndarray_layout::{Fit, IxDyn, LayoutError, SliceInfoElem, Strided};

/// Whether these counts add up to that of a list.
///
/// <details><summary>Contract (proved)</summary>
///
/// ```text
/// ensures result ≡ (total counts.now == len)
/// ```
/// [How to read it](ndarray_layout::contracts)
/// </details>
fn add_up_to(counts: &[usize], len: usize) -> bool {
    let mut left = len;
    for count in counts {
        match left.checked_sub(*count) {
            Some(rest) => left = rest,
            None => return false,
        }
    }
    left == 0
}

/// A list in few slices one after another, of these counts, with empty ones after them.
///
/// <details><summary>Contract (proved)</summary>
///
/// ```text
/// requires few: length counts.now ≤ 4
/// requires counts: total counts.now ≡ length elems.now
/// ensures map (λ slice. slice.now) (take (length counts.now) result) ≡ cut_by counts.now elems.now
/// ```
/// [How to read it](ndarray_layout::contracts)
/// </details>
fn few_slices<'a>(elems: &'a [SliceInfoElem], counts: &[usize]) -> [&'a [SliceInfoElem]; FEW] {
    let (mut slices, mut left) = ([&elems[..0]; FEW], elems);
    for position in 0..counts.len() {
        let (slice, rest) = left.split_at(counts[position]);
        slices[position] = slice;
        left = rest;
    }
    slices
}

/// A list in slices one after another, of these counts.
///
/// <details><summary>Contract (proved)</summary>
///
/// ```text
/// requires total counts.now ≡ length elems.now
/// ensures IfOk result (λ found. map (λ slice. slice.now) found.items ≡ cut_by counts.now elems.now)
/// ```
/// [How to read it](ndarray_layout::contracts)
/// </details>
fn many_slices<'a>(elems: &'a [SliceInfoElem], counts: &[usize]) -> Result<Vec<&'a [SliceInfoElem]>, AllocError> {
    let (mut slices, mut left) = (Vec::fallible_with_capacity(counts.len())?, elems);
    for count in counts {
        let (slice, rest) = left.split_at(*count);
        slices.fallible_push(slice)?;
        left = rest;
    }
    Ok(slices)
}

/// Two of many slices of a view that intersect, of which all elements are given one after another and how many each has.
///
/// Errors: those of `Strided::first_intersection`; out of memory, never for at most four slices.
///
/// <details><summary>Contract (proved)</summary>
///
/// ```text
/// requires total counts.now ≡ length elems.now
/// ensures fits: OnOk result (slices_fault fit view.now.shape (cut_by counts.now elems.now) ≡ None)
/// ensures fault: (kind : ErrorKind) → shape_fault result ≡ Some kind →
///     slices_fault fit view.now.shape (cut_by counts.now elems.now) ≡ Some kind
/// ensures memory: length counts.now ≤ 4 → shape_fault result ≡ None → IsOk result
/// ensures intersection: IfOk result (λ found. IsIntersection fit view.now.shape (cut_by counts.now elems.now) found)
/// ```
/// [How to read it](ndarray_layout::contracts)
/// </details>
fn intersection(
    view: &Strided<IxDyn>,
    elems: &[SliceInfoElem],
    counts: &[usize],
    fit: Fit,
) -> Result<Option<(usize, usize)>, LayoutError> {
    if counts.len() <= FEW {
        let slices = few_slices(elems, counts);
        return Ok(view.first_intersection(&slices[..counts.len()], fit)?);
    }
    let slices = many_slices(elems, counts)?;
    Ok(view.first_intersection_sorted(slices.as_slice(), fit)?)
}

/// Two of many slices of a shape that intersect.
///
/// Errors: those of `own_view`, then those of `Strided::first_intersection`; out of memory, never for at most four items, elements
/// and slices.
///
/// <details><summary>Contract (proved)</summary>
///
/// ```text
/// requires total counts.now ≡ length raws.now
/// ensures fits: OnOk result (option_or (own_layout_fault shape.now)
///     (slices_fault fit shape.now (slices_named counts.now raws.now)) ≡ None)
/// ensures fault: (kind : ErrorKind) → shape_fault result ≡ Some kind →
///     option_or (own_layout_fault shape.now)
///     (slices_fault fit shape.now (slices_named counts.now raws.now)) ≡ Some kind
/// ensures memory: NeedsNoMemory None (length shape.now) → length raws.now ≤ 4 →
///     length counts.now ≤ 4 → shape_fault result ≡ None → IsOk result
/// ensures intersection: IfOk result (λ found. IsIntersection fit shape.now (slices_named counts.now raws.now) found)
/// ```
/// [How to read it](ndarray_layout::contracts)
/// </details>
fn shape_intersection(
    shape: &[usize],
    raws: &[RawElem],
    counts: &[usize],
    fit: Fit,
) -> Result<Option<(usize, usize)>, LayoutError> {
    let view = own_view(shape)?;
    if raws.len() <= FEW {
        let elems = few_elems(raws);
        return intersection(&view, &elems[..raws.len()], counts, fit);
    }
    let elems = many_elems(raws)?;
    intersection(&view, elems.as_slice(), counts, fit)
}

/// Writes two positions, the less first, or leaves them where there are none; and returns the answer.
///
/// # Conditions
///
/// The caller ensures that there is room for two. Otherwise this call or a later one panics or returns unspecified
/// values.
///
/// <details><summary>Contract (proved)</summary>
///
/// ```text
/// requires length pair.old ≡ 2
/// ensures answer: is_choice result ≡ true
/// ensures pair: pair_found result pair.new ≡ found
/// ensures unchanged: result ≡ pos 0 → pair.new ≡ pair.old
/// ```
/// [How to read it](ndarray_layout::contracts)
/// </details>
fn write_pair(found: Option<(usize, usize)>, pair: &mut [MaybeUninit<usize>]) -> i32 {
    if let Some((first, second)) = found {
        pair.copy_from_slice(as_unwritten(&[first, second]));
    }
    answer_of(found.is_some())
}

/// Writes two of many slices of a shape that intersect, by their positions, and whether there are two.
///
/// <details><summary>Contract (proved)</summary>
///
/// ```text
/// ensures status: result ≢ out_of_memory → result ≡ status_where
///     (not (is_choice fit && are_elems elems.now && total counts.now == length elems.now
///     && length pair.old == 2))
///     (option_or (own_layout_fault shape.now)
///     (slices_fault (fit_named fit) shape.now (slices_named counts.now elems.now)))
/// ensures bad: (is_choice fit && are_elems elems.now && total counts.now == length elems.now
///     && length pair.old == 2) ≡ false → result ≡ bad_argument
/// ensures memory: NeedsNoMemory None (length shape.now) → length elems.now ≤ 4 →
///     length counts.now ≤ 4 → result ≢ out_of_memory
/// ensures answer: result ≡ ok → is_choice found.new ≡ true
/// ensures intersection: result ≡ ok → IsIntersection (fit_named fit) shape.now
///     (slices_named counts.now elems.now) (pair_found found.new pair.new)
/// ensures apart: result ≡ ok → found.new ≡ pos 0 → pair.new ≡ pair.old
/// ensures unchanged: result ≢ ok → (pair.new ≡ pair.old) × (found.new ≡ found.old)
/// ```
/// [How to read it](ndarray_layout::contracts)
/// </details>
pub fn nd_first_intersection(
    shape: &[usize],
    elems: &[RawElem],
    counts: &[usize],
    fit: i32,
    pair: &mut [MaybeUninit<usize>],
    found: &mut MaybeUninit<i32>,
) -> i32 {
    if !is_choice(fit) || !are_elems(elems) || pair.len() != 2 {
        return BAD_ARGUMENT;
    }
    if !add_up_to(counts, elems.len()) {
        return BAD_ARGUMENT;
    }
    match shape_intersection(shape, elems, counts, fit_named(fit)) {
        Ok(both) => {
            found.write(write_pair(both, pair));
            OK
        }
        Err(LayoutError::Shape(error)) => status_of(error.kind()),
        Err(LayoutError::Memory(_)) => OUT_OF_MEMORY,
    }
}

pub mod exported {
    use super::*;

    /// # Safety
    ///
    /// Each pointer is aligned and leads to as many items as its count says. That of an empty list isn't looked at.
    #[unsafe(no_mangle)]
    pub unsafe extern "C" fn nd_first_intersection(
        shape: *const usize,
        shape_count: usize,
        elems: *const RawElem,
        elems_count: usize,
        counts: *const usize,
        counts_count: usize,
        fit: i32,
        pair: *mut MaybeUninit<usize>,
        pair_count: usize,
        found: *mut MaybeUninit<i32>,
    ) -> i32 {
        unsafe {
            super::nd_first_intersection(
                if shape_count == 0 { &[] } else { ::core::slice::from_raw_parts(shape, shape_count) },
                if elems_count == 0 { &[] } else { ::core::slice::from_raw_parts(elems, elems_count) },
                if counts_count == 0 { &[] } else { ::core::slice::from_raw_parts(counts, counts_count) },
                fit,
                if pair_count == 0 { &mut [] } else { ::core::slice::from_raw_parts_mut(pair, pair_count) },
                &mut *found,
            )
        }
    }
}
