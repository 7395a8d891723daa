// Made by `rust/erase` of `crates/ndarray_layout_c/src/reshape_reasons.rt`: edit that.
//! Why a layout can't be read as one of another shape.

use crate::ndarray_layout_c::arguments::{is_choice, order_named};
use crate::ndarray_layout_c::layout_reasons::layout_reason;
use crate::ndarray_layout_c::lists::view;
use crate::ndarray_layout_c::reasons::{COPY, OTHER_SIZE, Reason, SIZE, no_reason, of_axis};
use crate::ndarray_layout_c::statuses::{BAD_ARGUMENT, INCOMPATIBLE_SHAPE, OK, OUT_OF_MEMORY, OVERFLOW, status_of};
use crate::unwritten::MaybeUninit;
use ::ndarray_layout::memory::AllocError;
use ::ndarray_layout::{
    CanIndexCheckMode, ErrorKind, IxDyn, LayoutError, Order, Strided, new_ixdyn, signed, size_of_shape_checked,
};

/// The error of reading a view as one of a shape.
///
/// Errors: out of memory, never for at most four axes of the shape.
///
/// <details><summary>Contract (proved)</summary>
///
/// ```text
/// ensures memory: NeedsNoMemory None (length (lengths new_shape.now)) → IsOk result
/// ensures fault: IfOk result (λ fault. fault ≡ view_reshape_fault order (lengths new_shape.now) view.now)
/// ```
/// [How to read it](ndarray_layout::contracts)
/// </details>
fn view_fault(view: &Strided<IxDyn>, new_shape: &IxDyn, order: Order) -> Result<Option<ErrorKind>, AllocError> {
    match view.reshape(new_shape, order) {
        Ok(_reshaped) => Ok(None),
        Err(LayoutError::Shape(error)) => Ok(Some(error.kind())),
        Err(LayoutError::Memory(error)) => Err(error),
    }
}

/// The error of reading a layout as one of a shape.
///
/// Errors: out of memory, never for at most four axes of both.
///
/// <details><summary>Contract (proved)</summary>
///
/// ```text
/// ensures memory: NeedsNoMemory None (length shape.now) →
///     NeedsNoMemory None (length strides.now) →
///     NeedsNoMemory None (length (lengths new_shape.now)) → IsOk result
/// ensures fault: IfOk result (λ fault. fault ≡ reading_fault order (lengths new_shape.now) shape.now strides.now)
/// ```
/// [How to read it](ndarray_layout::contracts)
/// </details>
fn reading_fault(
    shape: &[usize],
    strides: &[usize],
    new_shape: &IxDyn,
    order: Order,
) -> Result<Option<ErrorKind>, AllocError> {
    match view(shape, strides) {
        Ok(view) => view_fault(&view, new_shape, order),
        Err(LayoutError::Shape(error)) => Ok(Some(error.kind())),
        Err(LayoutError::Memory(error)) => Err(error),
    }
}

/// Of some axes those that are read first, so many of them.
///
/// <details><summary>Contract (proved)</summary>
///
/// ```text
/// requires count ≤ length items.now
/// ensures first: result.now ≡ read_first order count items.now
/// ensures few: length result.now ≤ length items.now
/// ```
/// [How to read it](ndarray_layout::contracts)
/// </details>
fn read_first(order: Order, count: usize, items: &[usize]) -> &[usize] {
    match order {
        Order::RowMajor => &items[..count],
        Order::ColumnMajor => &items[items.len() - count..],
    }
}

/// Whether a layout can't be read as one of a shape for its strides, by the axes up to one, with so many read before it.
///
/// Errors: out of memory, never for at most four axes of both.
///
/// <details><summary>Contract (proved)</summary>
///
/// ```text
/// requires axis: before < length shape.now
/// requires same_count: length shape.now ≡ length strides.now
/// ensures memory: NeedsNoMemory None (length shape.now) →
///     NeedsNoMemory None (length strides.now) →
///     NeedsNoMemory None (length (lengths new_shape.now)) → IsOk result
/// ensures stuck: IfOk result (λ stuck. stuck ≡ is_stuck order (lengths new_shape.now) shape.now strides.now before)
/// ```
/// [How to read it](ndarray_layout::contracts)
/// </details>
fn is_stuck(
    shape: &[usize],
    strides: &[usize],
    new_shape: &IxDyn,
    order: Order,
    before: usize,
) -> Result<bool, AllocError> {
    let shape = read_first(order, before + 1, shape);
    let strides = read_first(order, before + 1, strides);
    let fault = reading_fault(shape, strides, new_shape, order)?;
    Ok(matches!(fault, Some(ErrorKind::IncompatibleLayout)))
}

/// The first axis, as they are read, up to which a layout can't be read as one of a shape for its strides.
///
/// Errors: out of memory, never for at most four axes of both.
///
/// <details><summary>Contract (proved)</summary>
///
/// ```text
/// requires same_count: length shape.now ≡ length strides.now
/// ensures memory: NeedsNoMemory None (length shape.now) →
///     NeedsNoMemory None (length strides.now) →
///     NeedsNoMemory None (length (lengths new_shape.now)) → IsOk result
/// ensures axis: IfOk result (λ axis. axis ≡ stuck_axis order (lengths new_shape.now) shape.now strides.now)
/// ```
/// [How to read it](ndarray_layout::contracts)
/// </details>
fn stuck_axis(shape: &[usize], strides: &[usize], new_shape: &IxDyn, order: Order) -> Result<usize, AllocError> {
    for before in 0..shape.len() {
        if is_stuck(shape, strides, new_shape, order, before)? {
            return Ok(match order {
                Order::RowMajor => before,
                Order::ColumnMajor => shape.len() - (before + 1),
            });
        }
    }
    Ok(0)
}

/// The strides can't be read past an axis: its stride and its length, where there is such an axis.
///
/// <details><summary>Contract (proved)</summary>
///
/// ```text
/// requires same_count: length shape.now ≡ length strides.now
/// ensures result ≡ copy_reason status shape.now strides.now axis
/// ```
/// [How to read it](ndarray_layout::contracts)
/// </details>
fn copy_reason(status: i32, shape: &[usize], strides: &[usize], axis: usize) -> Reason {
    if axis >= shape.len() {
        return of_axis(status, COPY, axis, 0, 0, 0);
    }
    of_axis(status, COPY, axis, signed(strides[axis]), shape[axis], 0)
}

/// Why a layout that is accepted, of so many indices, can't be read as one of a shape.
///
/// Errors: out of memory, never for at most four axes of both.
///
/// <details><summary>Contract (proved)</summary>
///
/// ```text
/// requires same_count: length shape.now ≡ length strides.now
/// requires size: size ≡ size_of shape.now
/// requires sized: fault ≡ Some ErrorKind.IncompatibleShape → nonzero_size (lengths new_shape.now) ≤ limit
/// ensures memory: NeedsNoMemory None (length shape.now) →
///     NeedsNoMemory None (length strides.now) →
///     NeedsNoMemory None (length (lengths new_shape.now)) → IsOk result
/// ensures reason: IfOk result (λ reason. reason ≡ fault_reason shape.now strides.now
///     (lengths new_shape.now)
///     (stuck_axis order (lengths new_shape.now) shape.now strides.now) fault)
/// ```
/// [How to read it](ndarray_layout::contracts)
/// </details>
fn fault_reason(
    shape: &[usize],
    strides: &[usize],
    new_shape: &IxDyn,
    order: Order,
    size: usize,
    fault: Option<ErrorKind>,
) -> Result<Reason, AllocError> {
    match fault {
        None => Ok(no_reason()),
        Some(ErrorKind::Overflow) => Ok(of_axis(OVERFLOW, SIZE, 0, 0, 0, 0)),
        Some(ErrorKind::IncompatibleShape) => {
            let new_size = size_of_shape_checked(new_shape).unwrap_or(0);
            Ok(of_axis(INCOMPATIBLE_SHAPE, OTHER_SIZE, 0, 0, new_size, size))
        }
        Some(kind) => {
            let axis = stuck_axis(shape, strides, new_shape, order)?;
            Ok(copy_reason(status_of(kind), shape, strides, axis))
        }
    }
}

/// Why a layout can't be read as one of a shape.
///
/// Errors: out of memory, never for at most four axes of both.
///
/// <details><summary>Contract (proved)</summary>
///
/// ```text
/// ensures memory: NeedsNoMemory None (length shape.now) →
///     NeedsNoMemory None (length strides.now) → NeedsNoMemory None (length new_shape.now) →
///     IsOk result
/// ensures reason: IfOk result (λ reason. reason ≡ reshape_reason order new_shape.now shape.now strides.now)
/// ```
/// [How to read it](ndarray_layout::contracts)
/// </details>
fn reshape_reason(shape: &[usize], strides: &[usize], new_shape: &[usize], order: Order) -> Result<Reason, AllocError> {
    match view(shape, strides) {
        Ok(view) => {
            let new_shape = new_ixdyn(new_shape)?;
            let size = size_of_shape_checked(view.dim()).unwrap_or(0);
            let fault = view_fault(&view, &new_shape, order)?;
            fault_reason(shape, strides, &new_shape, order, size, fault)
        }
        Err(LayoutError::Shape(_error)) => {
            let mode = CanIndexCheckMode::ReadOnly;
            layout_reason(None, shape, strides, 1, usize::MAX, mode)
        }
        Err(LayoutError::Memory(error)) => Err(error),
    }
}

/// Writes why a layout can't be read as one of a shape.
///
/// <details><summary>Contract (proved)</summary>
///
/// ```text
/// ensures status: result ≢ out_of_memory → result ≡ status_where (not (is_choice order)) None
/// ensures bad: is_choice order ≡ false → result ≡ bad_argument
/// ensures memory: NeedsNoMemory None (length shape.now) →
///     NeedsNoMemory None (length strides.now) → NeedsNoMemory None (length new_shape.now) →
///     result ≢ out_of_memory
/// ensures reason: result ≡ ok → reason.new ≡ reshape_reason (order_named order) new_shape.now shape.now strides.now
/// ensures agrees: result ≡ ok → reason.new.status ≡ status_of
///     (reading_fault (order_named order) new_shape.now shape.now strides.now)
/// ensures unchanged: result ≢ ok → reason.new ≡ reason.old
/// ```
/// [How to read it](ndarray_layout::contracts)
/// </details>
pub fn nd_reshape_reason(
    shape: &[usize],
    strides: &[usize],
    new_shape: &[usize],
    order: i32,
    reason: &mut MaybeUninit<Reason>,
) -> i32 {
    if !is_choice(order) {
        return BAD_ARGUMENT;
    }
    match reshape_reason(shape, strides, new_shape, order_named(order)) {
        Ok(found) => {
            reason.write(found);
            OK
        }
        Err(_) => OUT_OF_MEMORY,
    }
}

pub mod exported {
    use super::*;

    /// # Safety
    ///
    /// Each pointer is aligned and leads to as many items as its count says. That of an empty list isn't looked at.
    #[unsafe(no_mangle)]
    pub unsafe extern "C" fn nd_reshape_reason(
        shape: *const usize,
        shape_count: usize,
        strides: *const usize,
        strides_count: usize,
        new_shape: *const usize,
        new_shape_count: usize,
        order: i32,
        reason: *mut MaybeUninit<Reason>,
    ) -> i32 {
        unsafe {
            super::nd_reshape_reason(
                if shape_count == 0 { &[] } else { ::core::slice::from_raw_parts(shape, shape_count) },
                if strides_count == 0 { &[] } else { ::core::slice::from_raw_parts(strides, strides_count) },
                if new_shape_count == 0 { &[] } else { ::core::slice::from_raw_parts(new_shape, new_shape_count) },
                order,
                &mut *reason,
            )
        }
    }
}
