// Made by `rust/erase` of `crates/ndarray_layout_c/src/layout_reasons.rt`: edit that.
//! Why a layout isn't accepted over a buffer.

use crate::ndarray_layout_c::aliases::alias_reason;
use crate::ndarray_layout_c::arguments::{is_choice, mode_named};
use crate::ndarray_layout_c::reasons::{
    BYTES, COUNT, HIGHEST, LENGTH, LOWEST, Reason, SIZE, SPAN, STRIDES, no_reason, of_axis, of_list,
};
use crate::ndarray_layout_c::statuses::{
    BAD_ARGUMENT, INCOMPATIBLE_LAYOUT, OK, OUT_OF_BOUNDS, OUT_OF_MEMORY, OVERFLOW,
};
use crate::unwritten::MaybeUninit;
use ::ndarray_layout::memory::AllocError;
use ::ndarray_layout::{CanIndexCheckMode, low_span, new_ixdyn, size_of_shape_checked, span_of_lengths};

/// The span of a layout, or why it isn't within the limits.
///
/// Errors: out of memory, never for at most four axes.
///
/// <details><summary>Contract (proved)</summary>
///
/// ```text
/// ensures memory: NeedsNoMemory None (length shape.now) → IsOk result
/// ensures reason: IfOk result (λ found. result_err found ≡ limits_reason elem_size shape.now (all_signed strides.now))
/// ensures span: IfOk result (λ found. IfOk found (λ n. n ≡ span_of_layout shape.now (all_signed strides.now)))
/// ensures valid: IfOk result (λ found. OnOk found (IsValidLayout shape.now (all_signed strides.now)))
/// ```
/// [How to read it](ndarray_layout::contracts)
/// </details>
fn span_or_reason(shape: &[usize], strides: &[usize], elem_size: usize) -> Result<Result<usize, Reason>, AllocError> {
    let dim = new_ixdyn(shape)?;
    if shape.len() != strides.len() {
        let (count, ndim) = (strides.len(), shape.len());
        return Ok(Err(of_list(INCOMPATIBLE_LAYOUT, COUNT, STRIDES, 0, count, ndim)));
    }
    if size_of_shape_checked(&dim).is_err() {
        return Ok(Err(of_axis(OVERFLOW, SIZE, 0, 0, 0, 0)));
    }
    // (with elements of no bytes, only the span is left to be past the limit)
    let Ok(span) = span_of_lengths(0, shape, strides) else {
        return Ok(Err(of_axis(OVERFLOW, SPAN, 0, 0, 0, 0)));
    };
    if span_of_lengths(elem_size, shape, strides).is_err() {
        return Ok(Err(of_axis(OVERFLOW, BYTES, 0, 0, span, elem_size)));
    }
    Ok(Ok(span))
}

/// Why a layout within the limits leaves a buffer of `len` elements, from a start.
///
/// <details><summary>Contract (proved)</summary>
///
/// ```text
/// requires valid: IsValidLayout shape.now (all_signed strides.now)
/// requires span: span ≡ span_of_layout shape.now (all_signed strides.now)
/// ensures result ≡ bounds_reason start len shape.now (all_signed strides.now)
/// ```
/// [How to read it](ndarray_layout::contracts)
/// </details>
fn bounds_reason(start: usize, shape: &[usize], strides: &[usize], span: usize, len: usize) -> Option<Reason> {
    let low = low_span(shape, strides);
    if start < low {
        return Some(of_axis(OUT_OF_BOUNDS, LOWEST, 0, 0, low, start));
    }
    let high = span - low;
    if start > isize::MAX as usize - high {
        return Some(of_axis(OUT_OF_BOUNDS, HIGHEST, 0, 0, high, start));
    }
    let highest = start + high;
    let is_past = if shape.contains(&0) { len < highest } else { len <= highest };
    is_past.then_some(of_axis(OUT_OF_BOUNDS, LENGTH, 0, 0, highest, len))
}

/// Why a layout within the limits isn't accepted over a buffer of `len` elements, from a start.
///
/// <details><summary>Contract (proved)</summary>
///
/// ```text
/// requires valid: IsValidLayout shape.now (all_signed strides.now)
/// requires span: span ≡ span_of_layout shape.now (all_signed strides.now)
/// ensures result ≡ buffer_reason start len mode shape.now (all_signed strides.now)
/// ```
/// [How to read it](ndarray_layout::contracts)
/// </details>
fn buffer_reason(
    start: usize,
    shape: &[usize],
    strides: &[usize],
    span: usize,
    len: usize,
    mode: CanIndexCheckMode,
) -> Option<Reason> {
    let reason = bounds_reason(start, shape, strides, span, len);
    if reason.is_some() || shape.contains(&0) {
        return reason;
    }
    match mode {
        CanIndexCheckMode::OwnedMutable => alias_reason(shape, strides),
        CanIndexCheckMode::ReadOnly => None,
    }
}

/// Why a layout isn't accepted over a buffer of `len` elements of `elem_size` bytes, from a start, or else from the lowest that
/// it can have.
///
/// Errors: out of memory, never for at most four axes.
///
/// <details><summary>Contract (proved)</summary>
///
/// ```text
/// ensures memory: NeedsNoMemory None (length shape.now) → IsOk result
/// ensures reason: IfOk result (λ reason. reason ≡
///     layout_reason start elem_size len mode shape.now (all_signed strides.now))
/// ```
/// [How to read it](ndarray_layout::contracts)
/// </details>
pub(crate) fn layout_reason(
    start: Option<usize>,
    shape: &[usize],
    strides: &[usize],
    elem_size: usize,
    len: usize,
    mode: CanIndexCheckMode,
) -> Result<Reason, AllocError> {
    match span_or_reason(shape, strides, elem_size)? {
        Ok(span) => {
            let start = start.unwrap_or(low_span(shape, strides));
            let reason = buffer_reason(start, shape, strides, span, len, mode);
            Ok(reason.unwrap_or(no_reason()))
        }
        Err(reason) => Ok(reason),
    }
}

/// Writes why a layout isn't accepted, and returns the status.
///
/// <details><summary>Contract (proved)</summary>
///
/// ```text
/// ensures status: result ≢ out_of_memory → result ≡ status_where (not (is_choice mode)) None
/// ensures bad: is_choice mode ≡ false → result ≡ bad_argument
/// ensures memory: NeedsNoMemory None (length shape.now) → result ≢ out_of_memory
/// ensures reason: result ≡ ok → reason.new ≡
///     layout_reason start elem_size len (mode_named mode) shape.now (all_signed strides.now)
/// ensures unchanged: result ≢ ok → reason.new ≡ reason.old
/// ```
/// [How to read it](ndarray_layout::contracts)
/// </details>
fn write_reason(
    start: Option<usize>,
    shape: &[usize],
    strides: &[usize],
    elem_size: usize,
    len: usize,
    mode: i32,
    reason: &mut MaybeUninit<Reason>,
) -> i32 {
    if !is_choice(mode) {
        return BAD_ARGUMENT;
    }
    let mode = mode_named(mode);
    match layout_reason(start, shape, strides, elem_size, len, mode) {
        Ok(found) => {
            reason.write(found);
            OK
        }
        Err(_) => OUT_OF_MEMORY,
    }
}

/// Writes why a layout isn't accepted over a buffer of `len` elements of `elem_size` bytes.
///
/// <details><summary>Contract (proved)</summary>
///
/// ```text
/// ensures status: result ≢ out_of_memory → result ≡ status_where (not (is_choice mode)) None
/// ensures bad: is_choice mode ≡ false → result ≡ bad_argument
/// ensures memory: NeedsNoMemory None (length shape.now) → result ≢ out_of_memory
/// ensures reason: result ≡ ok → reason.new ≡
///     layout_reason None elem_size len (mode_named mode) shape.now (all_signed strides.now)
/// ensures agrees: result ≡ ok → reason.new.status ≡ status_of
///     (acceptance elem_size len (mode_named mode) shape.now (all_signed strides.now))
/// ensures unchanged: result ≢ ok → reason.new ≡ reason.old
/// ```
/// [How to read it](ndarray_layout::contracts)
/// </details>
pub fn nd_layout_start_reason(
    shape: &[usize],
    strides: &[usize],
    elem_size: usize,
    len: usize,
    mode: i32,
    reason: &mut MaybeUninit<Reason>,
) -> i32 {
    write_reason(None, shape, strides, elem_size, len, mode, reason)
}

/// Writes why a layout isn't accepted from a start over a buffer of `len` elements of `elem_size` bytes.
///
/// <details><summary>Contract (proved)</summary>
///
/// ```text
/// ensures status: result ≢ out_of_memory → result ≡ status_where (not (is_choice mode)) None
/// ensures bad: is_choice mode ≡ false → result ≡ bad_argument
/// ensures memory: NeedsNoMemory None (length shape.now) → result ≢ out_of_memory
/// ensures reason: result ≡ ok → reason.new ≡ layout_reason (Some start)
///     elem_size len (mode_named mode) shape.now (all_signed strides.now)
/// ensures agrees: result ≡ ok → reason.new.status ≡ status_of
///     (acceptance_from start elem_size len (mode_named mode) shape.now (all_signed strides.now))
/// ensures unchanged: result ≢ ok → reason.new ≡ reason.old
/// ```
/// [How to read it](ndarray_layout::contracts)
/// </details>
pub fn nd_check_layout_reason(
    start: usize,
    shape: &[usize],
    strides: &[usize],
    elem_size: usize,
    len: usize,
    mode: i32,
    reason: &mut MaybeUninit<Reason>,
) -> i32 {
    write_reason(Some(start), shape, strides, elem_size, len, mode, reason)
}

pub mod exported {
    use super::*;

    /// # Safety
    ///
    /// Each pointer is aligned and leads to as many items as its count says. That of an empty list isn't looked at.
    #[unsafe(no_mangle)]
    pub unsafe extern "C" fn nd_layout_start_reason(
        shape: *const usize,
        shape_count: usize,
        strides: *const usize,
        strides_count: usize,
        elem_size: usize,
        len: usize,
        mode: i32,
        reason: *mut MaybeUninit<Reason>,
    ) -> i32 {
        unsafe {
            super::nd_layout_start_reason(
                if shape_count == 0 { &[] } else { ::core::slice::from_raw_parts(shape, shape_count) },
                if strides_count == 0 { &[] } else { ::core::slice::from_raw_parts(strides, strides_count) },
                elem_size,
                len,
                mode,
                &mut *reason,
            )
        }
    }

    /// # Safety
    ///
    /// Each pointer is aligned and leads to as many items as its count says. That of an empty list isn't looked at.
    #[unsafe(no_mangle)]
    pub unsafe extern "C" fn nd_check_layout_reason(
        start: usize,
        shape: *const usize,
        shape_count: usize,
        strides: *const usize,
        strides_count: usize,
        elem_size: usize,
        len: usize,
        mode: i32,
        reason: *mut MaybeUninit<Reason>,
    ) -> i32 {
        unsafe {
            super::nd_check_layout_reason(
                start,
                if shape_count == 0 { &[] } else { ::core::slice::from_raw_parts(shape, shape_count) },
                if strides_count == 0 { &[] } else { ::core::slice::from_raw_parts(strides, strides_count) },
                elem_size,
                len,
                mode,
                &mut *reason,
            )
        }
    }
}
