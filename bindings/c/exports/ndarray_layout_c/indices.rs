// Made by `rust/erase` of `crates/ndarray_layout_c/src/indices.rt`: edit that.
//! Indices, and where they lie.

use crate::ndarray_layout_c::arguments::{answer_of, is_choice, order_named};
use crate::ndarray_layout_c::lists::view_from;
use crate::ndarray_layout_c::statuses::{BAD_ARGUMENT, OK, OUT_OF_BOUNDS, OUT_OF_MEMORY, status_of};
use crate::unwritten::MaybeUninit;
use ::ndarray_layout::{
    ErrorKind, IxDyn, LayoutError, Lengths, Order, Strided, advance_column_major, advance_row_major, from_kind,
    is_index, new_ixdyn, product,
};

/// Moves an index of a shape to the next one in an order, and returns whether there is one; the last index becomes the first.
///
/// <details><summary>Contract (proved)</summary>
///
/// ```text
/// requires is_index shape.now index.old ≡ true
/// ensures more: result ≡ has_index_after order shape.now index.old
/// ensures next: index.new ≡ index_after order shape.now index.old
/// ```
/// [How to read it](ndarray_layout::contracts)
/// </details>
fn step(shape: &[usize], index: &mut [usize], order: Order) -> bool {
    match order {
        Order::RowMajor => advance_row_major(shape, index),
        Order::ColumnMajor => advance_column_major(shape, index),
    }
}

/// Moves an index of a shape to the next one in an order, and writes whether there is one; the last index becomes the first.
///
/// <details><summary>Contract (proved)</summary>
///
/// ```text
/// ensures status: result ≡ status_where (not (is_choice order)) (index_fault shape.now index.old)
/// ensures index: result ≡ ok → index.new ≡ index_after (order_named order) shape.now index.old
/// ensures has_next: result ≡ ok → has_next.new ≡
///     (if has_index_after (order_named order) shape.now index.old then pos 1 else pos 0)
/// ensures unchanged: result ≢ ok → (index.new ≡ index.old) × (has_next.new ≡ has_next.old)
/// ```
/// [How to read it](ndarray_layout::contracts)
/// </details>
pub fn nd_next_index(shape: &[usize], index: &mut [usize], order: i32, has_next: &mut MaybeUninit<i32>) -> i32 {
    if !is_choice(order) {
        return BAD_ARGUMENT;
    }
    if !is_index(shape, index) {
        return OUT_OF_BOUNDS;
    }
    has_next.write(answer_of(step(shape, index, order_named(order))));
    OK
}

/// The place of an index of a layout.
///
/// Errors: those of `view_from`, then `OutOfBounds` where the list is no index of the shape; out of memory, never for at most
/// four items.
///
/// <details><summary>Contract (proved)</summary>
///
/// ```text
/// ensures fits: OnOk result (option_or (layout_fault_from start shape.now
///     (all_signed strides.now))
///     (index_fault shape.now index.now) ≡ None)
/// ensures fault: (kind : ErrorKind) → shape_fault result ≡ Some kind →
///     option_or (layout_fault_from start shape.now (all_signed strides.now))
///     (index_fault shape.now index.now) ≡ Some kind
/// ensures memory: NeedsNoMemory None (length shape.now) →
///     NeedsNoMemory None (length strides.now) → NeedsNoMemory None (length index.now) →
///     shape_fault result ≡ None → IsOk result
/// ensures place: IfOk result (λ place. pos place ≡ place_at (view_of start shape.now strides.now) index.now)
/// ```
/// [How to read it](ndarray_layout::contracts)
/// </details>
fn place_of(start: usize, shape: &[usize], strides: &[usize], index: &[usize]) -> Result<usize, LayoutError> {
    let view = view_from(start, shape, strides)?;
    let index = new_ixdyn(index)?;
    match view.place(&index) {
        Some(place) => Ok(place),
        None => Err(LayoutError::Shape(from_kind(ErrorKind::OutOfBounds))),
    }
}

/// Writes the place of an index of a layout.
///
/// <details><summary>Contract (proved)</summary>
///
/// ```text
/// ensures status: result ≢ out_of_memory → result ≡ status_of
///     (option_or (layout_fault_from start shape.now (all_signed strides.now))
///     (index_fault shape.now index.now))
/// ensures memory: NeedsNoMemory None (length shape.now) →
///     NeedsNoMemory None (length strides.now) → NeedsNoMemory None (length index.now) →
///     result ≢ out_of_memory
/// ensures place: result ≡ ok → pos place.new ≡ place_at (view_of start shape.now strides.now) index.now
/// ensures unchanged: result ≢ ok → place.new ≡ place.old
/// ```
/// [How to read it](ndarray_layout::contracts)
/// </details>
pub fn nd_place(
    start: usize,
    shape: &[usize],
    strides: &[usize],
    index: &[usize],
    place: &mut MaybeUninit<usize>,
) -> i32 {
    match place_of(start, shape, strides, index) {
        Ok(found) => {
            place.write(found);
            OK
        }
        Err(LayoutError::Shape(error)) => status_of(error.kind()),
        Err(LayoutError::Memory(_)) => OUT_OF_MEMORY,
    }
}

/// Writes the places of all indices of a view, in an order.
///
/// # Conditions
///
/// The caller ensures that there is room for just as many. Otherwise this call or a later one panics or returns
/// unspecified values.
///
/// <details><summary>Contract (proved)</summary>
///
/// ```text
/// requires length places.old ≡ size view.now.shape
/// ensures map pos places.new ≡ view_places order view.now
/// ```
/// [How to read it](ndarray_layout::contracts)
/// </details>
fn fill_places(view: &Strided<IxDyn>, order: Order, places: &mut [MaybeUninit<usize>]) {
    for (at, place) in view.iter_places(order).enumerate() {
        places[at].write(place);
    }
}

/// Writes the places of all indices of a view, in an order, and returns the status.
///
/// <details><summary>Contract (proved)</summary>
///
/// ```text
/// ensures status: result ≡ status_where (not (length places.old == size view.now.shape)) None
/// ensures places: result ≡ ok → map pos places.new ≡ view_places order view.now
/// ensures unchanged: result ≢ ok → places.new ≡ places.old
/// ```
/// [How to read it](ndarray_layout::contracts)
/// </details>
fn write_places(view: &Strided<IxDyn>, order: Order, places: &mut [MaybeUninit<usize>]) -> i32 {
    if places.len() != product(view.dim().slice()) {
        return BAD_ARGUMENT;
    }
    fill_places(view, order, places);
    OK
}

/// Writes the places of all indices of a layout, in an order.
///
/// <details><summary>Contract (proved)</summary>
///
/// ```text
/// ensures status: result ≢ out_of_memory → result ≡ status_until (not (is_choice order))
///     (layout_fault_from start shape.now (all_signed strides.now))
///     (not (length places.old == size shape.now))
/// ensures bad: is_choice order ≡ false → result ≡ bad_argument
/// ensures memory: NeedsNoMemory None (length shape.now) →
///     NeedsNoMemory None (length strides.now) → result ≢ out_of_memory
/// ensures places: result ≡ ok → map pos places.new ≡
///     view_places (order_named order) (view_of start shape.now strides.now)
/// ensures unchanged: result ≢ ok → places.new ≡ places.old
/// ```
/// [How to read it](ndarray_layout::contracts)
/// </details>
pub fn nd_places(
    start: usize,
    shape: &[usize],
    strides: &[usize],
    order: i32,
    places: &mut [MaybeUninit<usize>],
) -> i32 {
    if !is_choice(order) {
        return BAD_ARGUMENT;
    }
    match view_from(start, shape, strides) {
        Ok(view) => write_places(&view, order_named(order), places),
        Err(LayoutError::Shape(error)) => status_of(error.kind()),
        Err(LayoutError::Memory(_)) => OUT_OF_MEMORY,
    }
}

pub mod exported {
    use super::*;

    /// # Safety
    ///
    /// Each pointer is aligned and leads to as many items as its count says. That of an empty list isn't looked at.
    #[unsafe(no_mangle)]
    pub unsafe extern "C" fn nd_next_index(
        shape: *const usize,
        shape_count: usize,
        index: *mut usize,
        index_count: usize,
        order: i32,
        has_next: *mut MaybeUninit<i32>,
    ) -> i32 {
        unsafe {
            super::nd_next_index(
                if shape_count == 0 { &[] } else { ::core::slice::from_raw_parts(shape, shape_count) },
                if index_count == 0 { &mut [] } else { ::core::slice::from_raw_parts_mut(index, index_count) },
                order,
                &mut *has_next,
            )
        }
    }

    /// # Safety
    ///
    /// Each pointer is aligned and leads to as many items as its count says. That of an empty list isn't looked at.
    #[unsafe(no_mangle)]
    pub unsafe extern "C" fn nd_place(
        start: usize,
        shape: *const usize,
        shape_count: usize,
        strides: *const usize,
        strides_count: usize,
        index: *const usize,
        index_count: usize,
        place: *mut MaybeUninit<usize>,
    ) -> i32 {
        unsafe {
            super::nd_place(
                start,
                if shape_count == 0 { &[] } else { ::core::slice::from_raw_parts(shape, shape_count) },
                if strides_count == 0 { &[] } else { ::core::slice::from_raw_parts(strides, strides_count) },
                if index_count == 0 { &[] } else { ::core::slice::from_raw_parts(index, index_count) },
                &mut *place,
            )
        }
    }

    /// # Safety
    ///
    /// Each pointer is aligned and leads to as many items as its count says. That of an empty list isn't looked at.
    #[unsafe(no_mangle)]
    pub unsafe extern "C" fn nd_places(
        start: usize,
        shape: *const usize,
        shape_count: usize,
        strides: *const usize,
        strides_count: usize,
        order: i32,
        places: *mut MaybeUninit<usize>,
        places_count: usize,
    ) -> i32 {
        unsafe {
            super::nd_places(
                start,
                if shape_count == 0 { &[] } else { ::core::slice::from_raw_parts(shape, shape_count) },
                if strides_count == 0 { &[] } else { ::core::slice::from_raw_parts(strides, strides_count) },
                order,
                if places_count == 0 { &mut [] } else { ::core::slice::from_raw_parts_mut(places, places_count) },
            )
        }
    }
}
