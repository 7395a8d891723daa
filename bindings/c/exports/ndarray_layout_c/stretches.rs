// Made by `rust/erase` of `crates/ndarray_layout_c/src/stretches.rt`: edit that.
//! Whether the places of a layout follow one another.

use crate::ndarray_layout_c::arguments::{answer_of, is_choice, order_named};
use crate::ndarray_layout_c::lists::view_from;
use crate::ndarray_layout_c::statuses::{BAD_ARGUMENT, OK, OUT_OF_MEMORY, status_of};
use crate::unwritten::MaybeUninit;
use ::ndarray_layout::{IxDyn, LayoutError, Order, Strided};

/// Writes the first place of a view and the one after its last, where its places follow one another in an order, and returns the
/// answer.
///
/// <details><summary>Contract (proved)</summary>
///
/// ```text
/// ensures answer: is_choice result ≡ true
/// ensures found: (result ≡ pos 1) ↔ IsStretch order view.now
/// ensures first: result ≡ pos 1 → first.new ≡ stretch_start view.now
/// ensures end: result ≡ pos 1 → end.new ≡ stretch_start view.now + size view.now.shape
/// ensures none_first: result ≡ pos 0 → first.new ≡ first.old
/// ensures none_end: result ≡ pos 0 → end.new ≡ end.old
/// ```
/// [How to read it](ndarray_layout::contracts)
/// </details>
fn write_stretch(
    view: &Strided<IxDyn>,
    order: Order,
    first: &mut MaybeUninit<usize>,
    end: &mut MaybeUninit<usize>,
) -> i32 {
    let stretch = view.stretch(order);
    if let Some(places) = &stretch {
        first.write(places.start);
        end.write(places.end);
    }
    answer_of(stretch.is_some())
}

/// Writes whether the places of a layout follow one another in an order without a gap, and where they do, the first of them and
/// the one after the last.
///
/// <details><summary>Contract (proved)</summary>
///
/// ```text
/// ensures status: result ≢ out_of_memory → result ≡ status_where (not (is_choice order))
///     (layout_fault_from start shape.now (all_signed strides.now))
/// ensures bad: is_choice order ≡ false → result ≡ bad_argument
/// ensures memory: NeedsNoMemory None (length shape.now) →
///     NeedsNoMemory None (length strides.now) → result ≢ out_of_memory
/// ensures answer: result ≡ ok → is_choice found.new ≡ true
/// ensures found: result ≡ ok → ((found.new ≡ pos 1) ↔
///     IsStretch (order_named order) (view_of start shape.now strides.now))
/// ensures first: result ≡ ok → found.new ≡ pos 1 → first.new ≡ stretch_start (view_of start shape.now strides.now)
/// ensures end: result ≡ ok → found.new ≡ pos 1 →
///     end.new ≡ stretch_start (view_of start shape.now strides.now) + size shape.now
/// ensures none_first: result ≡ ok → found.new ≡ pos 0 → first.new ≡ first.old
/// ensures none_end: result ≡ ok → found.new ≡ pos 0 → end.new ≡ end.old
/// ensures unchanged_first: result ≢ ok → first.new ≡ first.old
/// ensures unchanged_end: result ≢ ok → end.new ≡ end.old
/// ensures unchanged_found: result ≢ ok → found.new ≡ found.old
/// ```
/// [How to read it](ndarray_layout::contracts)
/// </details>
pub fn nd_stretch(
    start: usize,
    shape: &[usize],
    strides: &[usize],
    order: i32,
    first: &mut MaybeUninit<usize>,
    end: &mut MaybeUninit<usize>,
    found: &mut MaybeUninit<i32>,
) -> i32 {
    if !is_choice(order) {
        return BAD_ARGUMENT;
    }
    match view_from(start, shape, strides) {
        Ok(view) => {
            found.write(write_stretch(&view, order_named(order), first, end));
            OK
        }
        Err(LayoutError::Shape(error)) => status_of(error.kind()),
        Err(LayoutError::Memory(_)) => OUT_OF_MEMORY,
    }
}

pub mod exported {
    use super::*;

    /// # Safety
    ///
    /// Each pointer is aligned and leads to as many items as its count says. That of an empty list isn't looked at.
    #[unsafe(no_mangle)]
    pub unsafe extern "C" fn nd_stretch(
        start: usize,
        shape: *const usize,
        shape_count: usize,
        strides: *const usize,
        strides_count: usize,
        order: i32,
        first: *mut MaybeUninit<usize>,
        end: *mut MaybeUninit<usize>,
        found: *mut MaybeUninit<i32>,
    ) -> i32 {
        unsafe {
            super::nd_stretch(
                start,
                if shape_count == 0 { &[] } else { ::core::slice::from_raw_parts(shape, shape_count) },
                if strides_count == 0 { &[] } else { ::core::slice::from_raw_parts(strides, strides_count) },
                order,
                &mut *first,
                &mut *end,
                &mut *found,
            )
        }
    }
}
