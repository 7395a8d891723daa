// Made by `rust/erase` of `crates/ndarray_layout_c/src/layouts.rt`: edit that.
//! Layouts: which are accepted, and what they are like.

use crate::ndarray_layout_c::arguments::{answer_of, is_choice, mode_named};
use crate::ndarray_layout_c::lists::layout;
use crate::ndarray_layout_c::statuses::{BAD_ARGUMENT, OK, OUT_OF_MEMORY, status_of};
use crate::unwritten::{MaybeUninit, as_unwritten};
use ::ndarray_layout::{
    CanIndexCheckMode, Dimension, IxDyn, LayoutError, Lengths, Order, Strided, accept, default_strides,
    fortran_strides, has_overlap, is_layout_c, is_layout_f, low_span, new_ixdyn, size_of_shape_checked,
    span_of_lengths,
};

/// Accepts a layout over data of `len` elements of `elem_size` bytes, and writes the place of its first index, where its lowest
/// place is 0.
///
/// <details><summary>Contract (proved)</summary>
///
/// ```text
/// ensures status: result ≡ status_where (not (is_choice mode))
///     (acceptance elem_size len (mode_named mode) shape.now (all_signed strides.now))
/// ensures start: result ≡ ok → start.new ≡ low_span shape.now (all_signed strides.now)
/// ensures unchanged: result ≢ ok → start.new ≡ start.old
/// ```
/// [How to read it](ndarray_layout::contracts)
/// </details>
pub fn nd_layout_start(
    shape: &[usize],
    strides: &[usize],
    elem_size: usize,
    len: usize,
    mode: i32,
    start: &mut MaybeUninit<usize>,
) -> i32 {
    if !is_choice(mode) {
        return BAD_ARGUMENT;
    }
    if let Err(error) = accept(elem_size, len, shape, strides, mode_named(mode)) {
        return status_of(error.kind());
    }
    start.write(low_span(shape, strides));
    OK
}

/// Accepts a layout from a start over data of `len` elements of `elem_size` bytes, and returns the status.
///
/// <details><summary>Contract (proved)</summary>
///
/// ```text
/// ensures fits: OnOk result (acceptance_from start elem_size len mode shape.now (all_signed strides.now) ≡ None)
/// ensures fault: (kind : ErrorKind) → shape_fault result ≡ Some kind →
///     acceptance_from start elem_size len mode shape.now (all_signed strides.now) ≡ Some kind
/// ensures memory: NeedsNoMemory None (length shape.now) →
///     NeedsNoMemory None (length strides.now) → shape_fault result ≡ None → IsOk result
/// ```
/// [How to read it](ndarray_layout::contracts)
/// </details>
fn check_from(
    start: usize,
    shape: &[usize],
    strides: &[usize],
    elem_size: usize,
    len: usize,
    mode: CanIndexCheckMode,
) -> Result<(), LayoutError> {
    let (dim, strides) = (new_ixdyn(shape)?, new_ixdyn(strides)?);
    let _view = Strided::from_parts(start, dim, strides, elem_size, len, mode)?;
    Ok(())
}

/// Accepts a layout from a start over data of `len` elements of `elem_size` bytes.
///
/// <details><summary>Contract (proved)</summary>
///
/// ```text
/// ensures status: result ≢ out_of_memory → result ≡ status_where (not (is_choice mode))
///     (acceptance_from start elem_size len (mode_named mode) shape.now
///     (all_signed strides.now))
/// ensures bad: is_choice mode ≡ false → result ≡ bad_argument
/// ensures memory: NeedsNoMemory None (length shape.now) →
///     NeedsNoMemory None (length strides.now) → result ≢ out_of_memory
/// ```
/// [How to read it](ndarray_layout::contracts)
/// </details>
pub fn nd_check_layout(
    start: usize,
    shape: &[usize],
    strides: &[usize],
    elem_size: usize,
    len: usize,
    mode: i32,
) -> i32 {
    if !is_choice(mode) {
        return BAD_ARGUMENT;
    }
    let mode = mode_named(mode);
    match check_from(start, shape, strides, elem_size, len, mode) {
        Ok(()) => OK,
        Err(LayoutError::Shape(error)) => status_of(error.kind()),
        Err(LayoutError::Memory(_)) => OUT_OF_MEMORY,
    }
}

/// Writes whether two indices of a layout may alias.
///
/// <details><summary>Contract (proved)</summary>
///
/// ```text
/// ensures status: result ≡ status_of (size_fault 1 shape.now (all_signed strides.now))
/// ensures answer: result ≡ ok → answer.new ≡ (if not (is_empty shape.now)
///     && not (satisfies_no_alias_rule shape.now (all_signed strides.now)) then pos 1 else pos 0)
/// ensures unchanged: result ≢ ok → answer.new ≡ answer.old
/// ```
/// [How to read it](ndarray_layout::contracts)
/// </details>
pub fn nd_has_overlap(shape: &[usize], strides: &[usize], answer: &mut MaybeUninit<i32>) -> i32 {
    if let Err(error) = span_of_lengths(1, shape, strides) {
        return status_of(error.kind());
    }
    answer.write(answer_of(has_overlap(shape, strides)));
    OK
}

/// The strides that a shape has by itself, in an order.
///
/// Errors: `Overflow` where the product of the lengths that are not 0 is greater than `isize::MAX`; out of memory, never for at
/// most four axes.
///
/// <details><summary>Contract (proved)</summary>
///
/// ```text
/// ensures fits: OnOk result (own_strides_fault shape.now ≡ None)
/// ensures fault: (kind : ErrorKind) → shape_fault result ≡ Some kind → own_strides_fault shape.now ≡ Some kind
/// ensures memory: NeedsNoMemory None (length shape.now) → shape_fault result ≡ None → IsOk result
/// ensures strides: IfOk result (λ strides. lengths strides ≡ own_strides order shape.now)
/// ```
/// [How to read it](ndarray_layout::contracts)
/// </details>
fn own_strides(shape: &[usize], order: Order) -> Result<IxDyn, LayoutError> {
    let dim = new_ixdyn(shape)?;
    let _size = size_of_shape_checked(&dim)?;
    Ok(match order {
        Order::RowMajor => default_strides(&dim)?,
        Order::ColumnMajor => fortran_strides(&dim)?,
    })
}

/// Writes the strides that a shape has by itself, in an order, and returns the status.
///
/// <details><summary>Contract (proved)</summary>
///
/// ```text
/// ensures status: result ≢ out_of_memory → result ≡ status_where
///     (not (length strides.old == length shape.now)) (own_strides_fault shape.now)
/// ensures bad: length strides.old ≢ length shape.now → result ≡ bad_argument
/// ensures memory: NeedsNoMemory None (length shape.now) → result ≢ out_of_memory
/// ensures strides: result ≡ ok → strides.new ≡ own_strides order shape.now
/// ensures unchanged: result ≢ ok → strides.new ≡ strides.old
/// ```
/// [How to read it](ndarray_layout::contracts)
/// </details>
fn write_own_strides(shape: &[usize], strides: &mut [MaybeUninit<usize>], order: Order) -> i32 {
    if strides.len() != shape.len() {
        return BAD_ARGUMENT;
    }
    match own_strides(shape, order) {
        Ok(own) => {
            strides.copy_from_slice(as_unwritten(own.slice()));
            OK
        }
        Err(LayoutError::Shape(error)) => status_of(error.kind()),
        Err(LayoutError::Memory(_)) => OUT_OF_MEMORY,
    }
}

/// Writes the strides by which the last axis of a shape moves fastest.
///
/// <details><summary>Contract (proved)</summary>
///
/// ```text
/// ensures status: result ≢ out_of_memory → result ≡ status_where
///     (not (length strides.old == length shape.now)) (own_strides_fault shape.now)
/// ensures bad: length strides.old ≢ length shape.now → result ≡ bad_argument
/// ensures memory: NeedsNoMemory None (length shape.now) → result ≢ out_of_memory
/// ensures strides: result ≡ ok → strides.new ≡ own_strides RowMajor shape.now
/// ensures unchanged: result ≢ ok → strides.new ≡ strides.old
/// ```
/// [How to read it](ndarray_layout::contracts)
/// </details>
pub fn nd_default_strides(shape: &[usize], strides: &mut [MaybeUninit<usize>]) -> i32 {
    write_own_strides(shape, strides, Order::RowMajor)
}

/// Writes the strides by which the first axis of a shape moves fastest.
///
/// <details><summary>Contract (proved)</summary>
///
/// ```text
/// ensures status: result ≢ out_of_memory → result ≡ status_where
///     (not (length strides.old == length shape.now)) (own_strides_fault shape.now)
/// ensures bad: length strides.old ≢ length shape.now → result ≡ bad_argument
/// ensures memory: NeedsNoMemory None (length shape.now) → result ≢ out_of_memory
/// ensures strides: result ≡ ok → strides.new ≡ own_strides ColumnMajor shape.now
/// ensures unchanged: result ≢ ok → strides.new ≡ strides.old
/// ```
/// [How to read it](ndarray_layout::contracts)
/// </details>
pub fn nd_fortran_strides(shape: &[usize], strides: &mut [MaybeUninit<usize>]) -> i32 {
    write_own_strides(shape, strides, Order::ColumnMajor)
}

/// Writes whether no two indices of a layout have one place, and all fill a stretch without a gap. Without an index the rule on
/// lengths and strides decides.
///
/// <details><summary>Contract (proved)</summary>
///
/// ```text
/// ensures status: result ≢ out_of_memory → result ≡ status_of (size_fault 1 shape.now (all_signed strides.now))
/// ensures memory: NeedsNoMemory None (length shape.now) →
///     NeedsNoMemory None (length strides.now) → result ≢ out_of_memory
/// ensures answer: result ≡ ok → answer.new ≡
///     (if is_contiguous_layout shape.now (all_signed strides.now) then pos 1 else pos 0)
/// ensures unchanged: result ≢ ok → answer.new ≡ answer.old
/// ```
/// [How to read it](ndarray_layout::contracts)
/// </details>
pub fn nd_is_contiguous(shape: &[usize], strides: &[usize], answer: &mut MaybeUninit<i32>) -> i32 {
    match layout(shape, strides) {
        Ok((dim, strides)) => {
            answer.write(answer_of(IxDyn::is_contiguous(&dim, &strides)));
            OK
        }
        Err(LayoutError::Shape(error)) => status_of(error.kind()),
        Err(LayoutError::Memory(_)) => OUT_OF_MEMORY,
    }
}

/// Whether the places of all indices of a layout, in an order, follow one another without a gap.
///
/// <details><summary>Contract (proved)</summary>
///
/// ```text
/// requires valid: IsValidLayout (lengths dim.now) (all_signed (lengths strides.now))
/// ensures IsTrue result ↔ LiesInOrder order (lengths dim.now) (all_signed (lengths strides.now))
/// ```
/// [How to read it](ndarray_layout::contracts)
/// </details>
fn is_layout_in(order: Order, dim: &IxDyn, strides: &IxDyn) -> bool {
    match order {
        Order::RowMajor => is_layout_c(dim, strides),
        Order::ColumnMajor => is_layout_f(dim, strides),
    }
}

/// Writes whether the places of all indices of a layout, in an order, follow one another without a gap, and returns the
/// status.
///
/// <details><summary>Contract (proved)</summary>
///
/// ```text
/// ensures status: result ≢ out_of_memory → result ≡ status_of (size_fault 1 shape.now (all_signed strides.now))
/// ensures memory: NeedsNoMemory None (length shape.now) →
///     NeedsNoMemory None (length strides.now) → result ≢ out_of_memory
/// ensures answer: result ≡ ok → is_choice answer.new ≡ true
/// ensures places: result ≡ ok → ((answer.new ≡ pos 1) ↔ LiesInOrder order shape.now (all_signed strides.now))
/// ensures unchanged: result ≢ ok → answer.new ≡ answer.old
/// ```
/// [How to read it](ndarray_layout::contracts)
/// </details>
fn write_is_layout(order: Order, shape: &[usize], strides: &[usize], answer: &mut MaybeUninit<i32>) -> i32 {
    match layout(shape, strides) {
        Ok((dim, strides)) => {
            answer.write(answer_of(is_layout_in(order, &dim, &strides)));
            OK
        }
        Err(LayoutError::Shape(error)) => status_of(error.kind()),
        Err(LayoutError::Memory(_)) => OUT_OF_MEMORY,
    }
}

/// Writes whether the places of all indices of a layout, in row-major order, follow one another without a gap.
///
/// <details><summary>Contract (proved)</summary>
///
/// ```text
/// ensures status: result ≢ out_of_memory → result ≡ status_of (size_fault 1 shape.now (all_signed strides.now))
/// ensures memory: NeedsNoMemory None (length shape.now) →
///     NeedsNoMemory None (length strides.now) → result ≢ out_of_memory
/// ensures answer: result ≡ ok → is_choice answer.new ≡ true
/// ensures places: result ≡ ok → ((answer.new ≡ pos 1) ↔ LiesInOrder RowMajor shape.now (all_signed strides.now))
/// ensures unchanged: result ≢ ok → answer.new ≡ answer.old
/// ```
/// [How to read it](ndarray_layout::contracts)
/// </details>
pub fn nd_is_layout_c(shape: &[usize], strides: &[usize], answer: &mut MaybeUninit<i32>) -> i32 {
    write_is_layout(Order::RowMajor, shape, strides, answer)
}

/// Writes whether the places of all indices of a layout, in column-major order, follow one another without a gap.
///
/// <details><summary>Contract (proved)</summary>
///
/// ```text
/// ensures status: result ≢ out_of_memory → result ≡ status_of (size_fault 1 shape.now (all_signed strides.now))
/// ensures memory: NeedsNoMemory None (length shape.now) →
///     NeedsNoMemory None (length strides.now) → result ≢ out_of_memory
/// ensures answer: result ≡ ok → is_choice answer.new ≡ true
/// ensures places: result ≡ ok → ((answer.new ≡ pos 1) ↔ LiesInOrder ColumnMajor shape.now (all_signed strides.now))
/// ensures unchanged: result ≢ ok → answer.new ≡ answer.old
/// ```
/// [How to read it](ndarray_layout::contracts)
/// </details>
pub fn nd_is_layout_f(shape: &[usize], strides: &[usize], answer: &mut MaybeUninit<i32>) -> i32 {
    write_is_layout(Order::ColumnMajor, shape, strides, answer)
}

pub mod exported {
    use super::*;

    /// # Safety
    ///
    /// Each pointer is aligned and leads to as many items as its count says. That of an empty list isn't looked at.
    #[unsafe(no_mangle)]
    pub unsafe extern "C" fn nd_layout_start(
        shape: *const usize,
        shape_count: usize,
        strides: *const usize,
        strides_count: usize,
        elem_size: usize,
        len: usize,
        mode: i32,
        start: *mut MaybeUninit<usize>,
    ) -> i32 {
        unsafe {
            super::nd_layout_start(
                if shape_count == 0 { &[] } else { ::core::slice::from_raw_parts(shape, shape_count) },
                if strides_count == 0 { &[] } else { ::core::slice::from_raw_parts(strides, strides_count) },
                elem_size,
                len,
                mode,
                &mut *start,
            )
        }
    }

    /// # Safety
    ///
    /// Each pointer is aligned and leads to as many items as its count says. That of an empty list isn't looked at.
    #[unsafe(no_mangle)]
    pub unsafe extern "C" fn nd_check_layout(
        start: usize,
        shape: *const usize,
        shape_count: usize,
        strides: *const usize,
        strides_count: usize,
        elem_size: usize,
        len: usize,
        mode: i32,
    ) -> i32 {
        unsafe {
            super::nd_check_layout(
                start,
                if shape_count == 0 { &[] } else { ::core::slice::from_raw_parts(shape, shape_count) },
                if strides_count == 0 { &[] } else { ::core::slice::from_raw_parts(strides, strides_count) },
                elem_size,
                len,
                mode,
            )
        }
    }

    /// # Safety
    ///
    /// Each pointer is aligned and leads to as many items as its count says. That of an empty list isn't looked at.
    #[unsafe(no_mangle)]
    pub unsafe extern "C" fn nd_has_overlap(
        shape: *const usize,
        shape_count: usize,
        strides: *const usize,
        strides_count: usize,
        answer: *mut MaybeUninit<i32>,
    ) -> i32 {
        unsafe {
            super::nd_has_overlap(
                if shape_count == 0 { &[] } else { ::core::slice::from_raw_parts(shape, shape_count) },
                if strides_count == 0 { &[] } else { ::core::slice::from_raw_parts(strides, strides_count) },
                &mut *answer,
            )
        }
    }

    /// # Safety
    ///
    /// Each pointer is aligned and leads to as many items as its count says. That of an empty list isn't looked at.
    #[unsafe(no_mangle)]
    pub unsafe extern "C" fn nd_default_strides(
        shape: *const usize,
        shape_count: usize,
        strides: *mut MaybeUninit<usize>,
        strides_count: usize,
    ) -> i32 {
        unsafe {
            super::nd_default_strides(
                if shape_count == 0 { &[] } else { ::core::slice::from_raw_parts(shape, shape_count) },
                if strides_count == 0 { &mut [] } else { ::core::slice::from_raw_parts_mut(strides, strides_count) },
            )
        }
    }

    /// # Safety
    ///
    /// Each pointer is aligned and leads to as many items as its count says. That of an empty list isn't looked at.
    #[unsafe(no_mangle)]
    pub unsafe extern "C" fn nd_fortran_strides(
        shape: *const usize,
        shape_count: usize,
        strides: *mut MaybeUninit<usize>,
        strides_count: usize,
    ) -> i32 {
        unsafe {
            super::nd_fortran_strides(
                if shape_count == 0 { &[] } else { ::core::slice::from_raw_parts(shape, shape_count) },
                if strides_count == 0 { &mut [] } else { ::core::slice::from_raw_parts_mut(strides, strides_count) },
            )
        }
    }

    /// # Safety
    ///
    /// Each pointer is aligned and leads to as many items as its count says. That of an empty list isn't looked at.
    #[unsafe(no_mangle)]
    pub unsafe extern "C" fn nd_is_contiguous(
        shape: *const usize,
        shape_count: usize,
        strides: *const usize,
        strides_count: usize,
        answer: *mut MaybeUninit<i32>,
    ) -> i32 {
        unsafe {
            super::nd_is_contiguous(
                if shape_count == 0 { &[] } else { ::core::slice::from_raw_parts(shape, shape_count) },
                if strides_count == 0 { &[] } else { ::core::slice::from_raw_parts(strides, strides_count) },
                &mut *answer,
            )
        }
    }

    /// # Safety
    ///
    /// Each pointer is aligned and leads to as many items as its count says. That of an empty list isn't looked at.
    #[unsafe(no_mangle)]
    pub unsafe extern "C" fn nd_is_layout_c(
        shape: *const usize,
        shape_count: usize,
        strides: *const usize,
        strides_count: usize,
        answer: *mut MaybeUninit<i32>,
    ) -> i32 {
        unsafe {
            super::nd_is_layout_c(
                if shape_count == 0 { &[] } else { ::core::slice::from_raw_parts(shape, shape_count) },
                if strides_count == 0 { &[] } else { ::core::slice::from_raw_parts(strides, strides_count) },
                &mut *answer,
            )
        }
    }

    /// # Safety
    ///
    /// Each pointer is aligned and leads to as many items as its count says. That of an empty list isn't looked at.
    #[unsafe(no_mangle)]
    pub unsafe extern "C" fn nd_is_layout_f(
        shape: *const usize,
        shape_count: usize,
        strides: *const usize,
        strides_count: usize,
        answer: *mut MaybeUninit<i32>,
    ) -> i32 {
        unsafe {
            super::nd_is_layout_f(
                if shape_count == 0 { &[] } else { ::core::slice::from_raw_parts(shape, shape_count) },
                if strides_count == 0 { &[] } else { ::core::slice::from_raw_parts(strides, strides_count) },
                &mut *answer,
            )
        }
    }
}
