// Made by `rust/erase` of `crates/ndarray_layout_c/src/joined_layouts.rt`: edit that.
//! The axes that move fastest, joined in several layouts of one shape at once.

use crate::ndarray_layout_c::arguments::{is_choice, order_named};
use crate::ndarray_layout_c::statuses::{BAD_ARGUMENT, OK, status_of};
use crate::unwritten::{MaybeUninit, zeroed};
use ::ndarray_layout::{ErrorKind, ShapeError, joined_in_all, span_of_lengths};

/// Tests one of several layouts of a shape, of which the strides stand one after another.
///
/// Errors: those of `span_of_lengths` for elements of one byte.
///
/// <details><summary>Contract (proved)</summary>
///
/// ```text
/// requires number * length shape.now + length shape.now ≤ length strides.now
/// ensures fault: result_err result ≡ fault_of_layout shape.now strides.now number
/// ensures valid: OnOk result (IsValidLayout shape.now (all_signed (strides_of (length shape.now) number strides.now)))
/// ```
/// [How to read it](ndarray_layout::contracts)
/// </details>
fn test_layout(shape: &[usize], strides: &[usize], number: usize) -> Result<(), ShapeError> {
    let first = number * shape.len();
    span_of_lengths(1, shape, &strides[first..first + shape.len()])?;
    Ok(())
}

/// Whether a list has so many items for each of so many axes.
///
/// <details><summary>Contract (proved)</summary>
///
/// ```text
/// ensures result ≡ (len == axes * each)
/// ```
/// [How to read it](ndarray_layout::contracts)
/// </details>
fn has_count(len: usize, axes: usize, each: usize) -> bool {
    match axes.checked_mul(each) {
        Some(expected) => len == expected,
        None => false,
    }
}

/// The fault of so many layouts of one shape, of which the strides stand one after another.
///
/// <details><summary>Contract (proved)</summary>
///
/// ```text
/// ensures fault: result ≡ layouts_fault shape.now strides.now layouts
/// ensures counts: result ≡ None → length strides.now ≡ length shape.now * layouts
/// ensures valid: result ≡ None → (number : ℕ) → number < layouts →
///     IsValidLayout shape.now (all_signed (strides_of (length shape.now) number strides.now))
/// ```
/// [How to read it](ndarray_layout::contracts)
/// </details>
fn layouts_fault(shape: &[usize], strides: &[usize], layouts: usize) -> Option<ErrorKind> {
    if !has_count(strides.len(), shape.len(), layouts) {
        return Some(ErrorKind::IncompatibleLayout);
    }
    for number in 0..layouts {
        if let Err(error) = test_layout(shape, strides, number) {
            return Some(error.kind());
        }
    }
    None
}

/// Writes how many of the axes that move fastest are one in each of several layouts of a shape, its length, and its stride in
/// each layout.
///
/// <details><summary>Contract (proved)</summary>
///
/// ```text
/// ensures status: result ≡ status_where (not (is_choice order) || length new_strides.old == 0)
///     (layouts_fault shape.now strides.now (length new_strides.old))
/// ensures count: result ≡ ok → count.new ≤ length shape.now
/// ensures joined: result ≡ ok → AreJoined (order_named order) shape.now strides.now count.new len.new new_strides.new
/// ensures longest: result ≡ ok → NoMoreJoin (order_named order) shape.now strides.now
///     count.new len.new new_strides.new
/// ensures unchanged: result ≢ ok → (new_strides.new ≡ new_strides.old) × (count.new ≡ count.old) × (len.new ≡ len.old)
/// ```
/// [How to read it](ndarray_layout::contracts)
/// </details>
pub fn nd_joined_in_all(
    shape: &[usize],
    strides: &[usize],
    order: i32,
    new_strides: &mut [MaybeUninit<usize>],
    count: &mut MaybeUninit<usize>,
    len: &mut MaybeUninit<usize>,
) -> i32 {
    if !is_choice(order) || new_strides.is_empty() {
        return BAD_ARGUMENT;
    }
    match layouts_fault(shape, strides, new_strides.len()) {
        Some(kind) => status_of(kind),
        None => {
            let joined = joined_in_all(
                order_named(order),
                shape,
                strides,
                if shape.is_empty() { &mut [] } else { zeroed(new_strides) },
            );
            count.write(joined.0);
            len.write(joined.1);
            OK
        }
    }
}

pub mod exported {
    use super::*;

    /// # Safety
    ///
    /// Each pointer is aligned and leads to as many items as its count says. That of an empty list isn't looked at.
    #[unsafe(no_mangle)]
    pub unsafe extern "C" fn nd_joined_in_all(
        shape: *const usize,
        shape_count: usize,
        strides: *const usize,
        strides_count: usize,
        order: i32,
        new_strides: *mut MaybeUninit<usize>,
        new_strides_count: usize,
        count: *mut MaybeUninit<usize>,
        len: *mut MaybeUninit<usize>,
    ) -> i32 {
        unsafe {
            super::nd_joined_in_all(
                if shape_count == 0 { &[] } else { ::core::slice::from_raw_parts(shape, shape_count) },
                if strides_count == 0 { &[] } else { ::core::slice::from_raw_parts(strides, strides_count) },
                order,
                if new_strides_count == 0 {
                    &mut []
                } else {
                    ::core::slice::from_raw_parts_mut(new_strides, new_strides_count)
                },
                &mut *count,
                &mut *len,
            )
        }
    }
}
