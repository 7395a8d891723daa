// Made by `rust/erase` of `crates/ndarray_layout_c/src/rows.rt`: edit that.
//! The rows of a layout.

use crate::ndarray_layout_c::arguments::{is_choice, order_named};
use crate::ndarray_layout_c::lists::view_from;
use crate::ndarray_layout_c::statuses::{BAD_ARGUMENT, OK, OUT_OF_MEMORY, status_of};
use crate::unwritten::MaybeUninit;
use ::ndarray_layout::{IxDyn, LayoutError, Lengths, Order, Strided, signed};

/// Of a list with an item for each axis, that of the axis that moves fastest in an order, or this one where there is no axis.
///
/// <details><summary>Contract (proved)</summary>
///
/// ```text
/// ensures result ≡ fastest_item order items.now other
/// ```
/// [How to read it](ndarray_layout::contracts)
/// </details>
fn fastest_item(order: Order, items: &[usize], other: usize) -> usize {
    let item = match order {
        Order::RowMajor => items.last(),
        Order::ColumnMajor => items.first(),
    };
    match item {
        Some(item) => *item,
        None => other,
    }
}

/// Writes the start of each row of a view, in an order.
///
/// # Conditions
///
/// The caller ensures that there is room for just as many. Otherwise this call or a later one panics or returns
/// unspecified values.
///
/// <details><summary>Contract (proved)</summary>
///
/// ```text
/// requires length starts.old ≡ length (view_rows order view.now)
/// ensures starts.new ≡ map (λ row. row.start) (view_rows order view.now)
/// ```
/// [How to read it](ndarray_layout::contracts)
/// </details>
fn fill_starts(view: &Strided<IxDyn>, order: Order, starts: &mut [MaybeUninit<usize>]) {
    for (at, row) in view.rows(order).enumerate() {
        starts[at].write(row.start);
    }
}

/// Writes the rows of a view, in an order, and returns the status.
///
/// <details><summary>Contract (proved)</summary>
///
/// ```text
/// ensures status: result ≡ status_where (not (length starts.old == length (view_rows order view.now))) None
/// ensures rows: result ≡ ok → rows_from stride.new len.new starts.new ≡ view_rows order view.now
/// ensures stride: result ≡ ok → stride.new ≡ fastest_item order view.now.strides (pos 0)
/// ensures len: result ≡ ok → len.new ≡ fastest_item order view.now.shape 1
/// ensures unchanged_starts: result ≢ ok → starts.new ≡ starts.old
/// ensures unchanged_stride: result ≢ ok → stride.new ≡ stride.old
/// ensures unchanged_len: result ≢ ok → len.new ≡ len.old
/// ```
/// [How to read it](ndarray_layout::contracts)
/// </details>
fn write_rows(
    view: &Strided<IxDyn>,
    order: Order,
    starts: &mut [MaybeUninit<usize>],
    stride: &mut MaybeUninit<isize>,
    len: &mut MaybeUninit<usize>,
) -> i32 {
    if starts.len() != view.rows(order).len() {
        return BAD_ARGUMENT;
    }
    fill_starts(view, order, starts);
    stride.write(signed(fastest_item(order, view.strides().slice(), 0)));
    len.write(fastest_item(order, view.dim().slice(), 1));
    OK
}

/// Writes the start of each row of a layout, in an order, and the stride and the length that all of them have.
///
/// <details><summary>Contract (proved)</summary>
///
/// ```text
/// ensures status: result ≢ out_of_memory → result ≡ status_until (not (is_choice order))
///     (layout_fault_from start shape.now (all_signed strides.now))
///     (not (length starts.old == length (view_rows (order_named order)
///     (view_of start shape.now strides.now))))
/// ensures bad: is_choice order ≡ false → result ≡ bad_argument
/// ensures memory: NeedsNoMemory None (length shape.now) →
///     NeedsNoMemory None (length strides.now) → result ≢ out_of_memory
/// ensures rows: result ≡ ok → rows_from stride.new len.new starts.new ≡
///     view_rows (order_named order) (view_of start shape.now strides.now)
/// ensures stride: result ≡ ok → stride.new ≡ fastest_item (order_named order) (all_signed strides.now) (pos 0)
/// ensures len: result ≡ ok → len.new ≡ fastest_item (order_named order) shape.now 1
/// ensures unchanged_starts: result ≢ ok → starts.new ≡ starts.old
/// ensures unchanged_stride: result ≢ ok → stride.new ≡ stride.old
/// ensures unchanged_len: result ≢ ok → len.new ≡ len.old
/// ```
/// [How to read it](ndarray_layout::contracts)
/// </details>
pub fn nd_rows(
    start: usize,
    shape: &[usize],
    strides: &[usize],
    order: i32,
    starts: &mut [MaybeUninit<usize>],
    stride: &mut MaybeUninit<isize>,
    len: &mut MaybeUninit<usize>,
) -> i32 {
    if !is_choice(order) {
        return BAD_ARGUMENT;
    }
    match view_from(start, shape, strides) {
        Ok(view) => write_rows(&view, order_named(order), starts, stride, len),
        Err(LayoutError::Shape(error)) => status_of(error.kind()),
        Err(LayoutError::Memory(_)) => OUT_OF_MEMORY,
    }
}

pub mod exported {
    use super::*;

    /// # Safety
    ///
    /// Each pointer is aligned and leads to as many items as its count says. That of an empty list isn't looked at.
    #[unsafe(no_mangle)]
    pub unsafe extern "C" fn nd_rows(
        start: usize,
        shape: *const usize,
        shape_count: usize,
        strides: *const usize,
        strides_count: usize,
        order: i32,
        starts: *mut MaybeUninit<usize>,
        starts_count: usize,
        stride: *mut MaybeUninit<isize>,
        len: *mut MaybeUninit<usize>,
    ) -> i32 {
        unsafe {
            super::nd_rows(
                start,
                if shape_count == 0 { &[] } else { ::core::slice::from_raw_parts(shape, shape_count) },
                if strides_count == 0 { &[] } else { ::core::slice::from_raw_parts(strides, strides_count) },
                order,
                if starts_count == 0 { &mut [] } else { ::core::slice::from_raw_parts_mut(starts, starts_count) },
                &mut *stride,
                &mut *len,
            )
        }
    }
}
