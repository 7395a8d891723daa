// Made by `rust/erase` of `crates/ndarray_layout_c/src/slice_reasons.rt`: edit that.
//! Why a slice argument is none of a shape.

use crate::ndarray_layout_c::arguments::{fit_named, is_choice};
use crate::ndarray_layout_c::elements::{FEW, RawElem, are_elems, few_elems, many_elems};
use crate::ndarray_layout_c::reasons::{BOUND, COUNT, INDEX, Reason, SLICE, STEP, no_reason, of_axis, of_list};
use crate::ndarray_layout_c::statuses::{
    BAD_ARGUMENT, INCOMPATIBLE_SHAPE, OK, OUT_OF_BOUNDS, OUT_OF_MEMORY, UNSUPPORTED,
};
use crate::unwritten::MaybeUninit;
use ::ndarray_layout::memory::AllocError;
use ::ndarray_layout::{AxisElems, Fit, Slice, SliceInfoElem, in_ndim_of, resolve_elem, to_abs_slice};

/// Whether a bound of a range means no number from 0 to the length of the axis.
///
/// <details><summary>Contract (proved)</summary>
///
/// ```text
/// ensures result ≡ is_no_bound fit len bound
/// ```
/// [How to read it](ndarray_layout::contracts)
/// </details>
fn is_no_bound(len: usize, bound: isize, fit: Fit) -> bool {
    let slice = Slice { start: bound, end: None, step: 1 };
    to_abs_slice(len, slice, fit).is_err()
}

/// The first bound of a range that is none of the axis.
///
/// <details><summary>Contract (proved)</summary>
///
/// ```text
/// ensures result ≡ bound_at_fault fit len start end
/// ```
/// [How to read it](ndarray_layout::contracts)
/// </details>
fn bound_at_fault(len: usize, start: isize, end: Option<isize>, fit: Fit) -> Option<isize> {
    if is_no_bound(len, start, fit) {
        return Some(start);
    }
    match end {
        Some(end) if is_no_bound(len, end, fit) => Some(end),
        _ => None,
    }
}

/// Why an element that doesn't fit an axis doesn't.
///
/// <details><summary>Contract (proved)</summary>
///
/// ```text
/// ensures result ≡ elem_reason fit axis len elem
/// ```
/// [How to read it](ndarray_layout::contracts)
/// </details>
fn elem_reason(axis: usize, len: usize, elem: SliceInfoElem, fit: Fit) -> Reason {
    match elem {
        SliceInfoElem::Slice { start, end, .. } => match bound_at_fault(len, start, end, fit) {
            Some(bound) => of_axis(OUT_OF_BOUNDS, BOUND, axis, bound, len, 0),
            None => of_axis(UNSUPPORTED, STEP, axis, 0, len, 0),
        },
        SliceInfoElem::Index(index) => of_axis(OUT_OF_BOUNDS, INDEX, axis, index, len, 0),
        SliceInfoElem::NewAxis => no_reason(),
    }
}

/// Why a slice argument is none of a shape.
///
/// <details><summary>Contract (proved)</summary>
///
/// ```text
/// ensures result ≡ argument_reason fit shape.now elems.now
/// ```
/// [How to read it](ndarray_layout::contracts)
/// </details>
fn argument_reason(shape: &[usize], elems: &[SliceInfoElem], fit: Fit) -> Reason {
    let count = in_ndim_of(elems);
    if count != shape.len() {
        return of_list(INCOMPATIBLE_SHAPE, COUNT, SLICE, 0, count, shape.len());
    }
    for (axis, (len, elem)) in AxisElems::new(shape, elems).enumerate() {
        if resolve_elem(len, elem, fit).is_err() {
            return elem_reason(axis, len, elem, fit);
        }
    }
    no_reason()
}

/// Why a slice argument is none of a shape.
///
/// Errors: out of memory, never for at most four elements.
///
/// <details><summary>Contract (proved)</summary>
///
/// ```text
/// ensures memory: length raws.now ≤ 4 → IsOk result
/// ensures reason: IfOk result (λ reason. reason ≡ argument_reason fit shape.now (elems_named raws.now))
/// ```
/// [How to read it](ndarray_layout::contracts)
/// </details>
fn reason_of_raws(shape: &[usize], raws: &[RawElem], fit: Fit) -> Result<Reason, AllocError> {
    if raws.len() <= FEW {
        let elems = few_elems(raws);
        return Ok(argument_reason(shape, &elems[..raws.len()], fit));
    }
    Ok(argument_reason(shape, &many_elems(raws)?, fit))
}

/// Writes why a slice argument is none of a shape.
///
/// <details><summary>Contract (proved)</summary>
///
/// ```text
/// ensures status: result ≢ out_of_memory → result ≡ status_where (not (is_choice fit && are_elems elems.now)) None
/// ensures bad: (is_choice fit && are_elems elems.now) ≡ false → result ≡ bad_argument
/// ensures memory: length elems.now ≤ 4 → result ≢ out_of_memory
/// ensures reason: result ≡ ok → reason.new ≡ argument_reason (fit_named fit) shape.now (elems_named elems.now)
/// ensures agrees: result ≡ ok → reason.new.status ≡
///     status_of (argument_fault (fit_named fit) shape.now (elems_named elems.now))
/// ensures unchanged: result ≢ ok → reason.new ≡ reason.old
/// ```
/// [How to read it](ndarray_layout::contracts)
/// </details>
pub fn nd_slice_reason(shape: &[usize], elems: &[RawElem], fit: i32, reason: &mut MaybeUninit<Reason>) -> i32 {
    if !is_choice(fit) || !are_elems(elems) {
        return BAD_ARGUMENT;
    }
    match reason_of_raws(shape, elems, fit_named(fit)) {
        Ok(found) => {
            reason.write(found);
            OK
        }
        Err(_) => OUT_OF_MEMORY,
    }
}

pub mod exported {
    use super::*;

    /// # Safety
    ///
    /// Each pointer is aligned and leads to as many items as its count says. That of an empty list isn't looked at.
    #[unsafe(no_mangle)]
    pub unsafe extern "C" fn nd_slice_reason(
        shape: *const usize,
        shape_count: usize,
        elems: *const RawElem,
        elems_count: usize,
        fit: i32,
        reason: *mut MaybeUninit<Reason>,
    ) -> i32 {
        unsafe {
            super::nd_slice_reason(
                if shape_count == 0 { &[] } else { ::core::slice::from_raw_parts(shape, shape_count) },
                if elems_count == 0 { &[] } else { ::core::slice::from_raw_parts(elems, elems_count) },
                fit,
                &mut *reason,
            )
        }
    }
}
