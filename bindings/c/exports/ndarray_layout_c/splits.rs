// Made by `rust/erase` of `crates/ndarray_layout_c/src/splits.rt`: edit that.
//! The two parts of a layout that is split along an axis.

use crate::ndarray_layout_c::lists::view_from;
use crate::ndarray_layout_c::statuses::{BAD_ARGUMENT, OK, OUT_OF_MEMORY, status_of};
use crate::unwritten::{MaybeUninit, as_unwritten};
use ::ndarray_layout::{Axis, IxDyn, LayoutError, Lengths, Strided};

/// The parts of a layout below a coordinate of an axis, and from it on.
///
/// Errors: those of `view_from`, then those of `Strided::split_at`; out of memory, never for at most four items.
///
/// <details><summary>Contract (proved)</summary>
///
/// ```text
/// ensures fits: OnOk result (option_or (layout_fault_from start shape.now
///     (all_signed strides.now)) (split_fault shape.now axis index) ≡ None)
/// ensures fault: (kind : ErrorKind) → shape_fault result ≡ Some kind →
///     option_or (layout_fault_from start shape.now (all_signed strides.now))
///     (split_fault shape.now axis index) ≡ Some kind
/// ensures memory: NeedsNoMemory None (length shape.now) →
///     NeedsNoMemory None (length strides.now) → shape_fault result ≡ None → IsOk result
/// ensures first: IfOk result (λ both. both.0 ≡ first_part_of axis index (view_of start shape.now strides.now))
/// ensures second: IfOk result (λ both. both.1 ≡ second_part_of axis index (view_of start shape.now strides.now))
/// ensures first_kept: IfOk result (λ both.
///     Descends (λ coordinates. coordinates) (view_of start shape.now strides.now) both.0)
/// ensures second_kept: IfOk result (λ both.
///     Descends (second_source axis index) (view_of start shape.now strides.now) both.1)
/// ```
/// [How to read it](ndarray_layout::contracts)
/// </details>
fn parts(
    start: usize,
    shape: &[usize],
    strides: &[usize],
    axis: usize,
    index: usize,
) -> Result<(Strided<IxDyn>, Strided<IxDyn>), LayoutError> {
    let view = view_from(start, shape, strides)?;
    view.split_at(Axis(axis), index)
}

/// Splits a layout along an axis: writes the starts of the parts below a coordinate and from it on, the lengths of both, and the
/// strides, which both have.
///
/// <details><summary>Contract (proved)</summary>
///
/// ```text
/// ensures status: result ≢ out_of_memory → result ≡ status_where
///     (not (length new_starts.old == 2
///     && length new_shapes.old == length shape.now + length shape.now
///     && length new_strides.old == length shape.now))
///     (option_or (layout_fault_from start shape.now (all_signed strides.now))
///     (split_fault shape.now axis index))
/// ensures bad: (length new_starts.old == 2
///     && length new_shapes.old == length shape.now + length shape.now
///     && length new_strides.old == length shape.now) ≡ false → result ≡ bad_argument
/// ensures memory: NeedsNoMemory None (length shape.now) →
///     NeedsNoMemory None (length strides.now) → result ≢ out_of_memory
/// ensures starts: result ≡ ok → new_starts.new ≡
///     (first_part_of axis index (view_of start shape.now strides.now)).start
///     ∷ (second_part_of axis index (view_of start shape.now strides.now)).start ∷ []
/// ensures shapes: result ≡ ok → new_shapes.new ≡
///     (first_part_of axis index (view_of start shape.now strides.now)).shape
///     ++ (second_part_of axis index (view_of start shape.now strides.now)).shape
/// ensures first_strides: result ≡ ok → all_signed new_strides.new ≡
///     (first_part_of axis index (view_of start shape.now strides.now)).strides
/// ensures second_strides: result ≡ ok → all_signed new_strides.new ≡
///     (second_part_of axis index (view_of start shape.now strides.now)).strides
/// ensures first_kept: result ≡ ok → Descends (λ coordinates. coordinates)
///     (view_of start shape.now strides.now) (view_of (slice_index new_starts.new 0)
///     (take (length shape.now) new_shapes.new) new_strides.new)
/// ensures second_kept: result ≡ ok → Descends (second_source axis index)
///     (view_of start shape.now strides.now) (view_of (slice_index new_starts.new 1)
///     (drop (length shape.now) new_shapes.new) new_strides.new)
/// ensures unchanged: result ≢ ok → (new_starts.new ≡ new_starts.old)
///     × (new_shapes.new ≡ new_shapes.old) × (new_strides.new ≡ new_strides.old)
/// ```
/// [How to read it](ndarray_layout::contracts)
/// </details>
pub fn nd_split_at(
    start: usize,
    shape: &[usize],
    strides: &[usize],
    axis: usize,
    index: usize,
    new_starts: &mut [MaybeUninit<usize>],
    new_shapes: &mut [MaybeUninit<usize>],
    new_strides: &mut [MaybeUninit<usize>],
) -> i32 {
    let ndim = shape.len();
    if new_starts.len() != 2 || new_shapes.len() != 2 * ndim || new_strides.len() != ndim {
        return BAD_ARGUMENT;
    }
    match parts(start, shape, strides, axis, index) {
        Ok((first, second)) => {
            new_starts.copy_from_slice(as_unwritten(&[first.start(), second.start()]));
            new_shapes[..ndim].copy_from_slice(as_unwritten(first.dim().slice()));
            new_shapes[ndim..].copy_from_slice(as_unwritten(second.dim().slice()));
            new_strides.copy_from_slice(as_unwritten(first.strides().slice()));
            OK
        }
        Err(LayoutError::Shape(error)) => status_of(error.kind()),
        Err(LayoutError::Memory(_)) => OUT_OF_MEMORY,
    }
}

pub mod exported {
    use super::*;

    /// # Safety
    ///
    /// Each pointer is aligned and leads to as many items as its count says. That of an empty list isn't looked at.
    #[unsafe(no_mangle)]
    pub unsafe extern "C" fn nd_split_at(
        start: usize,
        shape: *const usize,
        shape_count: usize,
        strides: *const usize,
        strides_count: usize,
        axis: usize,
        index: usize,
        new_starts: *mut MaybeUninit<usize>,
        new_starts_count: usize,
        new_shapes: *mut MaybeUninit<usize>,
        new_shapes_count: usize,
        new_strides: *mut MaybeUninit<usize>,
        new_strides_count: usize,
    ) -> i32 {
        unsafe {
            super::nd_split_at(
                start,
                if shape_count == 0 { &[] } else { ::core::slice::from_raw_parts(shape, shape_count) },
                if strides_count == 0 { &[] } else { ::core::slice::from_raw_parts(strides, strides_count) },
                axis,
                index,
                if new_starts_count == 0 {
                    &mut []
                } else {
                    ::core::slice::from_raw_parts_mut(new_starts, new_starts_count)
                },
                if new_shapes_count == 0 {
                    &mut []
                } else {
                    ::core::slice::from_raw_parts_mut(new_shapes, new_shapes_count)
                },
                if new_strides_count == 0 {
                    &mut []
                } else {
                    ::core::slice::from_raw_parts_mut(new_strides, new_strides_count)
                },
            )
        }
    }
}
