// Made by `rust/erase` of `crates/ndarray_layout_c/src/slices.rt`: edit that.
//! Slices of a layout, and of a shape.

use crate::ndarray_layout_c::arguments::{answer_of, fit_named, is_choice};
use crate::ndarray_layout_c::elements::{FEW, RawElem, are_elems, few_elems, many_elems};
use crate::ndarray_layout_c::lists::{own_view, view_from, write_axes};
use crate::ndarray_layout_c::statuses::{BAD_ARGUMENT, OK, OUT_OF_MEMORY, status_of};
use crate::unwritten::MaybeUninit;
use ::ndarray_layout::{Fit, IxDyn, LayoutError, Lengths, SliceInfoElem, Strided};

/// How many indices a slice leaves of a shape.
///
/// Errors: those of `own_view`, then those of `Strided::picked`; out of memory, never for at most four items and
/// elements.
///
/// <details><summary>Contract (proved)</summary>
///
/// ```text
/// ensures fits: OnOk result (option_or (own_layout_fault shape.now)
///     (argument_fault fit shape.now (elems_named raws.now)) ≡ None)
/// ensures fault: (kind : ErrorKind) → shape_fault result ≡ Some kind →
///     option_or (own_layout_fault shape.now)
///     (argument_fault fit shape.now (elems_named raws.now)) ≡ Some kind
/// ensures memory: NeedsNoMemory None (length shape.now) → length raws.now ≤ 4 →
///     shape_fault result ≡ None → IsOk result
/// ensures count: IfOk result (λ count. count ≡ size (sliced_shape fit (elems_named raws.now) shape.now))
/// ```
/// [How to read it](ndarray_layout::contracts)
/// </details>
fn picked(shape: &[usize], raws: &[RawElem], fit: Fit) -> Result<usize, LayoutError> {
    let view = own_view(shape)?;
    if raws.len() <= FEW {
        let elems = few_elems(raws);
        return Ok(view.picked(&&elems[..raws.len()], fit)?);
    }
    Ok(view.picked(&many_elems(raws)?, fit)?)
}

/// Writes how many indices a slice leaves of a shape.
///
/// <details><summary>Contract (proved)</summary>
///
/// ```text
/// ensures status: result ≢ out_of_memory → result ≡ status_where
///     (not (is_choice fit && are_elems elems.now))
///     (option_or (own_layout_fault shape.now)
///     (argument_fault (fit_named fit) shape.now (elems_named elems.now)))
/// ensures bad: (is_choice fit && are_elems elems.now) ≡ false → result ≡ bad_argument
/// ensures memory: NeedsNoMemory None (length shape.now) → length elems.now ≤ 4 → result ≢ out_of_memory
/// ensures count: result ≡ ok → count.new ≡ size (sliced_shape (fit_named fit) (elems_named elems.now) shape.now)
/// ensures unchanged: result ≢ ok → count.new ≡ count.old
/// ```
/// [How to read it](ndarray_layout::contracts)
/// </details>
pub fn nd_picked(shape: &[usize], elems: &[RawElem], fit: i32, count: &mut MaybeUninit<usize>) -> i32 {
    if !is_choice(fit) || !are_elems(elems) {
        return BAD_ARGUMENT;
    }
    match picked(shape, elems, fit_named(fit)) {
        Ok(picked) => {
            count.write(picked);
            OK
        }
        Err(LayoutError::Shape(error)) => status_of(error.kind()),
        Err(LayoutError::Memory(_)) => OUT_OF_MEMORY,
    }
}

/// A slice of a layout.
///
/// Errors: those of `view_from`, then those of `Strided::slice`; out of memory, never for at most four items and
/// elements.
///
/// <details><summary>Contract (proved)</summary>
///
/// ```text
/// ensures fits: OnOk result (argument_fault fit view.now.shape (elems_named raws.now) ≡ None)
/// ensures fault: (kind : ErrorKind) → shape_fault result ≡ Some kind →
///     argument_fault fit view.now.shape (elems_named raws.now) ≡ Some kind
/// ensures memory: length raws.now ≤ 4 → NeedsNoMemory None (out_count (elems_named raws.now)) →
///     shape_fault result ≡ None → IsOk result
/// ensures sliced: IfOk result (λ v. v ≡ slice_of fit (elems_named raws.now) view.now)
/// ensures kept: IfOk result (λ v. Descends (selected fit (elems_named raws.now) view.now.shape) view.now v)
/// ```
/// [How to read it](ndarray_layout::contracts)
/// </details>
fn sliced(view: &Strided<IxDyn>, raws: &[RawElem], fit: Fit) -> Result<Strided<IxDyn>, LayoutError> {
    if raws.len() <= FEW {
        let elems = few_elems(raws);
        return view.slice(&&elems[..raws.len()], fit);
    }
    view.slice(&many_elems(raws)?, fit)
}

/// Writes a slice of a view, and returns the status.
///
/// <details><summary>Contract (proved)</summary>
///
/// ```text
/// ensures status: result ≢ out_of_memory → result ≡ status_until false
///     (argument_fault fit view.now.shape (elems_named raws.now))
///     (not (length new_shape.old == length (slice_of fit (elems_named raws.now) view.now).shape)
///     || not (length new_strides.old == length (slice_of fit
///     (elems_named raws.now) view.now).shape))
/// ensures memory: length raws.now ≤ 4 → NeedsNoMemory None (out_count (elems_named raws.now)) → result ≢ out_of_memory
/// ensures start: result ≡ ok → new_start.new ≡ (slice_of fit (elems_named raws.now) view.now).start
/// ensures shape: result ≡ ok → new_shape.new ≡ (slice_of fit (elems_named raws.now) view.now).shape
/// ensures strides: result ≡ ok → all_signed new_strides.new ≡ (slice_of fit (elems_named raws.now) view.now).strides
/// ensures kept: result ≡ ok → Descends (selected fit (elems_named raws.now) view.now.shape)
///     view.now (view_of new_start.new new_shape.new new_strides.new)
/// ensures unchanged_start: result ≢ ok → new_start.new ≡ new_start.old
/// ensures unchanged_shape: result ≢ ok → new_shape.new ≡ new_shape.old
/// ensures unchanged_strides: result ≢ ok → new_strides.new ≡ new_strides.old
/// ```
/// [How to read it](ndarray_layout::contracts)
/// </details>
fn write_slice(
    view: &Strided<IxDyn>,
    raws: &[RawElem],
    fit: Fit,
    new_start: &mut MaybeUninit<usize>,
    new_shape: &mut [MaybeUninit<usize>],
    new_strides: &mut [MaybeUninit<usize>],
) -> i32 {
    match sliced(view, raws, fit) {
        Ok(slice) => {
            let status = write_axes(&slice, new_shape, new_strides);
            if status == OK {
                new_start.write(slice.start());
            }
            status
        }
        Err(LayoutError::Shape(error)) => status_of(error.kind()),
        Err(LayoutError::Memory(_)) => OUT_OF_MEMORY,
    }
}

/// Slices a layout: writes the start, the shape and the strides of what is left.
///
/// <details><summary>Contract (proved)</summary>
///
/// ```text
/// ensures status: result ≢ out_of_memory → result ≡ status_until
///     (not (is_choice fit && are_elems elems.now))
///     (option_or (layout_fault_from start shape.now (all_signed strides.now))
///     (argument_fault (fit_named fit) shape.now (elems_named elems.now)))
///     (not (length new_shape.old
///     == length (sliced_view fit elems.now start shape.now strides.now).shape)
///     || not (length new_strides.old
///     == length (sliced_view fit elems.now start shape.now strides.now).shape))
/// ensures bad: (is_choice fit && are_elems elems.now) ≡ false → result ≡ bad_argument
/// ensures memory: NeedsNoMemory None (length shape.now) →
///     NeedsNoMemory None (length strides.now) → length elems.now ≤ 4 →
///     NeedsNoMemory None (out_count (elems_named elems.now)) → result ≢ out_of_memory
/// ensures start: result ≡ ok → new_start.new ≡ (sliced_view fit elems.now start shape.now strides.now).start
/// ensures shape: result ≡ ok → new_shape.new ≡ (sliced_view fit elems.now start shape.now strides.now).shape
/// ensures strides: result ≡ ok → all_signed new_strides.new ≡
///     (sliced_view fit elems.now start shape.now strides.now).strides
/// ensures kept: result ≡ ok → Descends
///     (selected (fit_named fit) (elems_named elems.now) shape.now)
///     (view_of start shape.now strides.now)
///     (view_of new_start.new new_shape.new new_strides.new)
/// ensures unchanged_start: result ≢ ok → new_start.new ≡ new_start.old
/// ensures unchanged_shape: result ≢ ok → new_shape.new ≡ new_shape.old
/// ensures unchanged_strides: result ≢ ok → new_strides.new ≡ new_strides.old
/// ```
/// [How to read it](ndarray_layout::contracts)
/// </details>
pub fn nd_slice(
    start: usize,
    shape: &[usize],
    strides: &[usize],
    elems: &[RawElem],
    fit: i32,
    new_start: &mut MaybeUninit<usize>,
    new_shape: &mut [MaybeUninit<usize>],
    new_strides: &mut [MaybeUninit<usize>],
) -> i32 {
    if !is_choice(fit) || !are_elems(elems) {
        return BAD_ARGUMENT;
    }
    match view_from(start, shape, strides) {
        Ok(view) => {
            let fit = fit_named(fit);
            write_slice(&view, elems, fit, new_start, new_shape, new_strides)
        }
        Err(LayoutError::Shape(error)) => status_of(error.kind()),
        Err(LayoutError::Memory(_)) => OUT_OF_MEMORY,
    }
}

/// Whether two slices of a view share an index.
///
/// Errors: those of `Strided::meets`; out of memory, never for at most four elements in each.
///
/// <details><summary>Contract (proved)</summary>
///
/// ```text
/// ensures fits: OnOk result (option_or (argument_fault fit view.now.shape first.now)
///     (argument_fault fit view.now.shape (elems_named second.now)) ≡ None)
/// ensures fault: (kind : ErrorKind) → shape_fault result ≡ Some kind →
///     option_or (argument_fault fit view.now.shape first.now)
///     (argument_fault fit view.now.shape (elems_named second.now)) ≡ Some kind
/// ensures memory: length second.now ≤ 4 → shape_fault result ≡ None → IsOk result
/// ensures intersect: IfOk result (λ intersect. IsTrue intersect ↔
///     Intersect fit view.now.shape first.now (elems_named second.now))
/// ```
/// [How to read it](ndarray_layout::contracts)
/// </details>
fn meets(view: &Strided<IxDyn>, first: &[SliceInfoElem], second: &[RawElem], fit: Fit) -> Result<bool, LayoutError> {
    if second.len() <= FEW {
        let elems = few_elems(second);
        return Ok(view.meets(&first, &&elems[..second.len()], fit)?);
    }
    Ok(view.meets(&first, &many_elems(second)?, fit)?)
}

/// Whether two slices of a shape share an index.
///
/// Errors: those of `own_view`, then those of `Strided::meets`; out of memory, never for at most four items and
/// elements.
///
/// <details><summary>Contract (proved)</summary>
///
/// ```text
/// ensures fits: OnOk result (option_or (own_layout_fault shape.now)
///     (option_or (argument_fault fit shape.now (elems_named first.now))
///     (argument_fault fit shape.now (elems_named second.now))) ≡ None)
/// ensures fault: (kind : ErrorKind) → shape_fault result ≡ Some kind →
///     option_or (own_layout_fault shape.now)
///     (option_or (argument_fault fit shape.now (elems_named first.now))
///     (argument_fault fit shape.now (elems_named second.now))) ≡ Some kind
/// ensures memory: NeedsNoMemory None (length shape.now) → length first.now ≤ 4 →
///     length second.now ≤ 4 → shape_fault result ≡ None → IsOk result
/// ensures intersect: IfOk result (λ intersect. IsTrue intersect ↔
///     Intersect fit shape.now (elems_named first.now) (elems_named second.now))
/// ```
/// [How to read it](ndarray_layout::contracts)
/// </details>
fn shape_intersects(shape: &[usize], first: &[RawElem], second: &[RawElem], fit: Fit) -> Result<bool, LayoutError> {
    let view = own_view(shape)?;
    if first.len() <= FEW {
        let elems = few_elems(first);
        return meets(&view, &elems[..first.len()], second, fit);
    }
    let elems = many_elems(first)?;
    meets(&view, elems.as_slice(), second, fit)
}

/// Writes whether two slices of a shape share an index.
///
/// <details><summary>Contract (proved)</summary>
///
/// ```text
/// ensures status: result ≢ out_of_memory → result ≡ status_where
///     (not (is_choice fit && are_elems first.now && are_elems second.now))
///     (option_or (own_layout_fault shape.now)
///     (option_or (argument_fault (fit_named fit) shape.now (elems_named first.now))
///     (argument_fault (fit_named fit) shape.now (elems_named second.now))))
/// ensures bad: (is_choice fit && are_elems first.now && are_elems second.now) ≡ false → result ≡ bad_argument
/// ensures memory: NeedsNoMemory None (length shape.now) → length first.now ≤ 4 →
///     length second.now ≤ 4 → result ≢ out_of_memory
/// ensures answer: result ≡ ok → is_choice answer.new ≡ true
/// ensures intersect: result ≡ ok → ((answer.new ≡ pos 1) ↔ Intersect (fit_named fit)
///     shape.now (elems_named first.now) (elems_named second.now))
/// ensures unchanged: result ≢ ok → answer.new ≡ answer.old
/// ```
/// [How to read it](ndarray_layout::contracts)
/// </details>
pub fn nd_slices_intersect(
    shape: &[usize],
    first: &[RawElem],
    second: &[RawElem],
    fit: i32,
    answer: &mut MaybeUninit<i32>,
) -> i32 {
    if !is_choice(fit) || !are_elems(first) || !are_elems(second) {
        return BAD_ARGUMENT;
    }
    match shape_intersects(shape, first, second, fit_named(fit)) {
        Ok(intersect) => {
            answer.write(answer_of(intersect));
            OK
        }
        Err(LayoutError::Shape(error)) => status_of(error.kind()),
        Err(LayoutError::Memory(_)) => OUT_OF_MEMORY,
    }
}

pub mod exported {
    use super::*;

    /// # Safety
    ///
    /// Each pointer is aligned and leads to as many items as its count says. That of an empty list isn't looked at.
    #[unsafe(no_mangle)]
    pub unsafe extern "C" fn nd_picked(
        shape: *const usize,
        shape_count: usize,
        elems: *const RawElem,
        elems_count: usize,
        fit: i32,
        count: *mut MaybeUninit<usize>,
    ) -> i32 {
        unsafe {
            super::nd_picked(
                if shape_count == 0 { &[] } else { ::core::slice::from_raw_parts(shape, shape_count) },
                if elems_count == 0 { &[] } else { ::core::slice::from_raw_parts(elems, elems_count) },
                fit,
                &mut *count,
            )
        }
    }

    /// # Safety
    ///
    /// Each pointer is aligned and leads to as many items as its count says. That of an empty list isn't looked at.
    #[unsafe(no_mangle)]
    pub unsafe extern "C" fn nd_slice(
        start: usize,
        shape: *const usize,
        shape_count: usize,
        strides: *const usize,
        strides_count: usize,
        elems: *const RawElem,
        elems_count: usize,
        fit: i32,
        new_start: *mut MaybeUninit<usize>,
        new_shape: *mut MaybeUninit<usize>,
        new_shape_count: usize,
        new_strides: *mut MaybeUninit<usize>,
        new_strides_count: usize,
    ) -> i32 {
        unsafe {
            super::nd_slice(
                start,
                if shape_count == 0 { &[] } else { ::core::slice::from_raw_parts(shape, shape_count) },
                if strides_count == 0 { &[] } else { ::core::slice::from_raw_parts(strides, strides_count) },
                if elems_count == 0 { &[] } else { ::core::slice::from_raw_parts(elems, elems_count) },
                fit,
                &mut *new_start,
                if new_shape_count == 0 {
                    &mut []
                } else {
                    ::core::slice::from_raw_parts_mut(new_shape, new_shape_count)
                },
                if new_strides_count == 0 {
                    &mut []
                } else {
                    ::core::slice::from_raw_parts_mut(new_strides, new_strides_count)
                },
            )
        }
    }

    /// # Safety
    ///
    /// Each pointer is aligned and leads to as many items as its count says. That of an empty list isn't looked at.
    #[unsafe(no_mangle)]
    pub unsafe extern "C" fn nd_slices_intersect(
        shape: *const usize,
        shape_count: usize,
        first: *const RawElem,
        first_count: usize,
        second: *const RawElem,
        second_count: usize,
        fit: i32,
        answer: *mut MaybeUninit<i32>,
    ) -> i32 {
        unsafe {
            super::nd_slices_intersect(
                if shape_count == 0 { &[] } else { ::core::slice::from_raw_parts(shape, shape_count) },
                if first_count == 0 { &[] } else { ::core::slice::from_raw_parts(first, first_count) },
                if second_count == 0 { &[] } else { ::core::slice::from_raw_parts(second, second_count) },
                fit,
                &mut *answer,
            )
        }
    }
}
