// Made by `rust/erase` of `crates/ndarray_layout_c/src/shapes.rt`: edit that.
//! Shapes in common, axes merged, and layouts along other shapes.

use crate::ndarray_layout_c::arguments::{answer_of, is_choice, order_named};
use crate::ndarray_layout_c::elements::FEW;
use crate::ndarray_layout_c::lists::{view, write_axes};
use crate::ndarray_layout_c::statuses::{
    BAD_ARGUMENT, INCOMPATIBLE_SHAPE, OK, OUT_OF_BOUNDS, OUT_OF_MEMORY, UNSUPPORTED, status_of,
};
use crate::unwritten::{MaybeUninit, as_unwritten, zeroed};
use ::ndarray_layout::memory::AllocError;
use ::ndarray_layout::memory::prelude::{FallibleVec, Vec};
use ::ndarray_layout::{
    Axis, IxDyn, LayoutError, Lengths, Order, Strided, fill_common_shape, have_common_shape, merge_fitting, new_ixdyn,
    span_of_lengths,
};

/// Writes the common shape of two shapes, of which the first has no fewer axes, and returns the status.
///
/// <details><summary>Contract (proved)</summary>
///
/// ```text
/// requires shorter: length shorter.now ≤ length longer.now
/// ensures status: result ≡ status_where
///     (not (length common.old == length longer.now)) (common_shape_fault longer.now shorter.now)
/// ensures common: result ≡ ok → common_shape longer.now shorter.now ≡ Some common.new
/// ensures unchanged: result ≢ ok → common.new ≡ common.old
/// ```
/// [How to read it](ndarray_layout::contracts)
/// </details>
fn write_common_shape(longer: &[usize], shorter: &[usize], common: &mut [MaybeUninit<usize>]) -> i32 {
    if common.len() != longer.len() {
        return BAD_ARGUMENT;
    }
    if !have_common_shape(longer, shorter) {
        return INCOMPATIBLE_SHAPE;
    }
    fill_common_shape(longer, shorter, zeroed(common));
    OK
}

/// Writes the shape that two shapes have in common, by NumPy's rule.
///
/// <details><summary>Contract (proved)</summary>
///
/// ```text
/// ensures status: result ≡ status_where
///     (not (length common.old == max (length first.now) (length second.now)))
///     (common_shape_fault first.now second.now)
/// ensures common: result ≡ ok → common_shape first.now second.now ≡ Some common.new
/// ensures unchanged: result ≢ ok → common.new ≡ common.old
/// ```
/// [How to read it](ndarray_layout::contracts)
/// </details>
pub fn nd_co_broadcast(first: &[usize], second: &[usize], common: &mut [MaybeUninit<usize>]) -> i32 {
    if first.len() < second.len() {
        write_common_shape(second, first, common)
    } else {
        write_common_shape(first, second, common)
    }
}

/// Merges the axis `take` into the axis `into`, in place, where one stride has the coordinates of both, and writes
/// whether it did.
///
/// <details><summary>Contract (proved)</summary>
///
/// ```text
/// ensures status: result ≡ status_of (option_or
///     (size_fault 1 shape.old (all_signed strides.old)) (axes_fault shape.old take into))
/// ensures answer: result ≡ ok → is_choice merged.new ≡ true
/// ensures fits: result ≡ ok → ((merged.new ≡ pos 1) ↔ MergeFits
///     (slice_index shape.old take)
///     (signed (slice_index strides.old take))
///     (slice_index shape.old into)
///     (signed (slice_index strides.old into)))
/// ensures merged: result ≡ ok → merged.new ≡ pos 1 →
///     (shape.new ≡ merged_shape take into shape.old)
///     × (strides.new ≡ merged_strides take into shape.old strides.old)
/// ensures apart: result ≡ ok → merged.new ≡ pos 0 → (shape.new ≡ shape.old) × (strides.new ≡ strides.old)
/// ensures kept: result ≡ ok → merged.new ≡ pos 1 →
///     DescendsInPlace (merge_source take into shape.old)
///     shape.old strides.old shape.new strides.new
/// ensures unchanged: result ≢ ok → (shape.new ≡ shape.old) × (strides.new ≡ strides.old) × (merged.new ≡ merged.old)
/// ```
/// [How to read it](ndarray_layout::contracts)
/// </details>
pub fn nd_merge_axes(
    shape: &mut [usize],
    strides: &mut [usize],
    take: usize,
    into: usize,
    merged: &mut MaybeUninit<i32>,
) -> i32 {
    if let Err(error) = span_of_lengths(1, shape, strides) {
        return status_of(error.kind());
    }
    if take >= shape.len() || into >= shape.len() {
        return OUT_OF_BOUNDS;
    }
    if take == into {
        return UNSUPPORTED;
    }
    merged.write(answer_of(merge_fitting(shape, strides, take, into)));
    OK
}

/// A layout read as one of a shape.
///
/// Errors: those of `view`, then those of `Strided::broadcast`; out of memory, never for at most four items.
///
/// <details><summary>Contract (proved)</summary>
///
/// ```text
/// ensures fits: OnOk result (option_or (layout_fault shape.now (all_signed strides.now))
///     (broadcast_fault target.now shape.now) ≡ None)
/// ensures fault: (kind : ErrorKind) → shape_fault result ≡ Some kind →
///     option_or (layout_fault shape.now (all_signed strides.now))
///     (broadcast_fault target.now shape.now) ≡ Some kind
/// ensures memory: NeedsNoMemory None (length shape.now) →
///     NeedsNoMemory None (length strides.now) → NeedsNoMemory None (length target.now) →
///     shape_fault result ≡ None → IsOk result
/// ensures shape: IfOk result (λ v. v.shape ≡ target.now)
/// ensures strides: IfOk result (λ v. v.strides ≡ broadcast_strides target.now shape.now (all_signed strides.now))
/// ```
/// [How to read it](ndarray_layout::contracts)
/// </details>
fn broadcast(shape: &[usize], strides: &[usize], target: &[usize]) -> Result<Strided<IxDyn>, LayoutError> {
    let view = view(shape, strides)?;
    let target = new_ixdyn(target)?;
    view.broadcast(&target)
}

/// Writes the strides along which a layout is read as one of the shape `target`.
///
/// <details><summary>Contract (proved)</summary>
///
/// ```text
/// ensures status: result ≢ out_of_memory → result ≡ status_where
///     (not (length new_strides.old == length target.now))
///     (option_or (layout_fault shape.now (all_signed strides.now))
///     (broadcast_fault target.now shape.now))
/// ensures bad: length new_strides.old ≢ length target.now → result ≡ bad_argument
/// ensures memory: NeedsNoMemory None (length shape.now) →
///     NeedsNoMemory None (length strides.now) → NeedsNoMemory None (length target.now) →
///     result ≢ out_of_memory
/// ensures strides: result ≡ ok → all_signed new_strides.new ≡
///     broadcast_strides target.now shape.now (all_signed strides.now)
/// ensures kept: result ≡ ok → IsLayoutOf (broadcast_source shape.now) shape.now strides.now target.now new_strides.new
/// ensures unchanged: result ≢ ok → new_strides.new ≡ new_strides.old
/// ```
/// [How to read it](ndarray_layout::contracts)
/// </details>
pub fn nd_broadcast(
    shape: &[usize],
    strides: &[usize],
    target: &[usize],
    new_strides: &mut [MaybeUninit<usize>],
) -> i32 {
    if new_strides.len() != target.len() {
        return BAD_ARGUMENT;
    }
    match broadcast(shape, strides, target) {
        Ok(view) => {
            new_strides.copy_from_slice(as_unwritten(view.strides().slice()));
            OK
        }
        Err(LayoutError::Shape(error)) => status_of(error.kind()),
        Err(LayoutError::Memory(_)) => OUT_OF_MEMORY,
    }
}

/// Writes the strides along which a shape has the places of a view in an order, and returns the status.
///
/// <details><summary>Contract (proved)</summary>
///
/// ```text
/// requires count: length new_strides.old ≡ length new_shape.now
/// ensures status: result ≢ out_of_memory → result ≡ status_of (view_reshape_fault order new_shape.now view.now)
/// ensures fits: result ≡ ok → view_reshape_fault order new_shape.now view.now ≡ None
/// ensures memory: NeedsNoMemory None (length new_shape.now) → result ≢ out_of_memory
/// ensures strides: result ≡ ok → all_signed new_strides.new ≡ reshaped_strides order new_shape.now view.now
/// ensures unchanged: result ≢ ok → new_strides.new ≡ new_strides.old
/// ```
/// [How to read it](ndarray_layout::contracts)
/// </details>
fn write_reshaped(
    view: &Strided<IxDyn>,
    order: Order,
    new_shape: &[usize],
    new_strides: &mut [MaybeUninit<usize>],
) -> i32 {
    let Ok(new_shape) = new_ixdyn(new_shape) else {
        return OUT_OF_MEMORY;
    };
    match view.reshape(&new_shape, order) {
        Ok(reshaped) => {
            new_strides.copy_from_slice(as_unwritten(reshaped.strides().slice()));
            OK
        }
        Err(LayoutError::Shape(error)) => status_of(error.kind()),
        Err(LayoutError::Memory(_)) => OUT_OF_MEMORY,
    }
}

/// Writes the strides along which a shape has the places of a layout in an order.
///
/// <details><summary>Contract (proved)</summary>
///
/// ```text
/// ensures status: result ≢ out_of_memory → result ≡ status_where
///     (not (is_choice order && length new_strides.old == length new_shape.now))
///     (option_or (layout_fault shape.now (all_signed strides.now))
///     (view_reshape_fault (order_named order) new_shape.now (lowest_view shape.now strides.now)))
/// ensures bad: (is_choice order && length new_strides.old == length new_shape.now) ≡ false → result ≡ bad_argument
/// ensures memory: NeedsNoMemory None (length shape.now) →
///     NeedsNoMemory None (length strides.now) → NeedsNoMemory None (length new_shape.now) →
///     result ≢ out_of_memory
/// ensures strides: result ≡ ok → all_signed new_strides.new ≡ reshaped_strides
///     (order_named order) new_shape.now (lowest_view shape.now strides.now)
/// ensures kept: result ≡ ok →
///     DescendsInPlace (reshape_source (order_named order) shape.now new_shape.now)
///     shape.now strides.now new_shape.now new_strides.new
/// ensures unchanged: result ≢ ok → new_strides.new ≡ new_strides.old
/// ```
/// [How to read it](ndarray_layout::contracts)
/// </details>
pub fn nd_reshape(
    shape: &[usize],
    strides: &[usize],
    new_shape: &[usize],
    order: i32,
    new_strides: &mut [MaybeUninit<usize>],
) -> i32 {
    if !is_choice(order) || new_strides.len() != new_shape.len() {
        return BAD_ARGUMENT;
    }
    match view(shape, strides) {
        Ok(view) => write_reshaped(&view, order_named(order), new_shape, new_strides),
        Err(LayoutError::Shape(error)) => status_of(error.kind()),
        Err(LayoutError::Memory(_)) => OUT_OF_MEMORY,
    }
}

/// The axes of these numbers, of which there are few, with the first axis after them.
///
/// <details><summary>Contract (proved)</summary>
///
/// ```text
/// requires length numbers.now ≤ 4
/// ensures axis_numbers (take (length numbers.now) result) ≡ numbers.now
/// ```
/// [How to read it](ndarray_layout::contracts)
/// </details>
fn few_axes(numbers: &[usize]) -> [Axis; FEW] {
    let mut axes = [Axis(0); FEW];
    for place in 0..numbers.len() {
        axes[place] = Axis(numbers[place]);
    }
    axes
}

/// The axes of any count of numbers.
///
/// <details><summary>Contract (proved)</summary>
///
/// ```text
/// ensures IfOk result (λ axes. axis_numbers axes.items ≡ numbers.now)
/// ```
/// [How to read it](ndarray_layout::contracts)
/// </details>
fn many_axes(numbers: &[usize]) -> Result<Vec<Axis>, AllocError> {
    let mut axes = Vec::fallible_with_capacity(numbers.len())?;
    for number in numbers {
        axes.fallible_push(Axis(*number))?;
    }
    Ok(axes)
}

/// A layout with its axes in another order.
///
/// Errors: those of `view`, then those of `Strided::permuted_axes`; out of memory, never for at most four items.
///
/// <details><summary>Contract (proved)</summary>
///
/// ```text
/// ensures fits: OnOk result (option_or (layout_fault shape.now (all_signed strides.now))
///     (permute_fault shape.now numbers.now) ≡ None)
/// ensures fault: (kind : ErrorKind) → shape_fault result ≡ Some kind →
///     option_or (layout_fault shape.now (all_signed strides.now))
///     (permute_fault shape.now numbers.now) ≡ Some kind
/// ensures memory: NeedsNoMemory None (length shape.now) →
///     NeedsNoMemory None (length strides.now) → length numbers.now ≤ 4 →
///     shape_fault result ≡ None → IsOk result
/// ensures permuted: IfOk result (λ v. v ≡ permuted_of numbers.now (lowest_view shape.now strides.now))
/// ensures count: IfOk result (λ v. length v.shape ≡ length shape.now)
/// ```
/// [How to read it](ndarray_layout::contracts)
/// </details>
fn permuted(shape: &[usize], strides: &[usize], numbers: &[usize]) -> Result<Strided<IxDyn>, LayoutError> {
    let view = view(shape, strides)?;
    if numbers.len() <= FEW {
        let axes = few_axes(numbers);
        return view.permuted_axes(&axes[..numbers.len()]);
    }
    view.permuted_axes(many_axes(numbers)?.as_slice())
}

/// Writes the shape and the strides of a layout with its axes in another order.
///
/// <details><summary>Contract (proved)</summary>
///
/// ```text
/// ensures status: result ≢ out_of_memory → result ≡ status_where
///     (not (length new_shape.old == length shape.now
///     && length new_strides.old == length shape.now))
///     (option_or (layout_fault shape.now (all_signed strides.now))
///     (permute_fault shape.now axes.now))
/// ensures bad: (length new_shape.old == length shape.now
///     && length new_strides.old == length shape.now) ≡ false → result ≡ bad_argument
/// ensures memory: NeedsNoMemory None (length shape.now) →
///     NeedsNoMemory None (length strides.now) → length axes.now ≤ 4 → result ≢ out_of_memory
/// ensures shape: result ≡ ok → new_shape.new ≡ (permuted_of axes.now (lowest_view shape.now strides.now)).shape
/// ensures strides: result ≡ ok → all_signed new_strides.new ≡
///     (permuted_of axes.now (lowest_view shape.now strides.now)).strides
/// ensures kept: result ≡ ok → DescendsInPlace (permute_source axes.now)
///     shape.now strides.now new_shape.new new_strides.new
/// ensures unchanged: result ≢ ok → (new_shape.new ≡ new_shape.old) × (new_strides.new ≡ new_strides.old)
/// ```
/// [How to read it](ndarray_layout::contracts)
/// </details>
pub fn nd_permuted_axes(
    shape: &[usize],
    strides: &[usize],
    axes: &[usize],
    new_shape: &mut [MaybeUninit<usize>],
    new_strides: &mut [MaybeUninit<usize>],
) -> i32 {
    if new_shape.len() != shape.len() || new_strides.len() != shape.len() {
        return BAD_ARGUMENT;
    }
    match permuted(shape, strides, axes) {
        Ok(view) => write_axes(&view, new_shape, new_strides),
        Err(LayoutError::Shape(error)) => status_of(error.kind()),
        Err(LayoutError::Memory(_)) => OUT_OF_MEMORY,
    }
}

pub mod exported {
    use super::*;

    /// # Safety
    ///
    /// Each pointer is aligned and leads to as many items as its count says. That of an empty list isn't looked at.
    #[unsafe(no_mangle)]
    pub unsafe extern "C" fn nd_co_broadcast(
        first: *const usize,
        first_count: usize,
        second: *const usize,
        second_count: usize,
        common: *mut MaybeUninit<usize>,
        common_count: usize,
    ) -> i32 {
        unsafe {
            super::nd_co_broadcast(
                if first_count == 0 { &[] } else { ::core::slice::from_raw_parts(first, first_count) },
                if second_count == 0 { &[] } else { ::core::slice::from_raw_parts(second, second_count) },
                if common_count == 0 { &mut [] } else { ::core::slice::from_raw_parts_mut(common, common_count) },
            )
        }
    }

    /// # Safety
    ///
    /// Each pointer is aligned and leads to as many items as its count says. That of an empty list isn't looked at.
    #[unsafe(no_mangle)]
    pub unsafe extern "C" fn nd_merge_axes(
        shape: *mut usize,
        shape_count: usize,
        strides: *mut usize,
        strides_count: usize,
        take: usize,
        into: usize,
        merged: *mut MaybeUninit<i32>,
    ) -> i32 {
        unsafe {
            super::nd_merge_axes(
                if shape_count == 0 { &mut [] } else { ::core::slice::from_raw_parts_mut(shape, shape_count) },
                if strides_count == 0 { &mut [] } else { ::core::slice::from_raw_parts_mut(strides, strides_count) },
                take,
                into,
                &mut *merged,
            )
        }
    }

    /// # Safety
    ///
    /// Each pointer is aligned and leads to as many items as its count says. That of an empty list isn't looked at.
    #[unsafe(no_mangle)]
    pub unsafe extern "C" fn nd_broadcast(
        shape: *const usize,
        shape_count: usize,
        strides: *const usize,
        strides_count: usize,
        target: *const usize,
        target_count: usize,
        new_strides: *mut MaybeUninit<usize>,
        new_strides_count: usize,
    ) -> i32 {
        unsafe {
            super::nd_broadcast(
                if shape_count == 0 { &[] } else { ::core::slice::from_raw_parts(shape, shape_count) },
                if strides_count == 0 { &[] } else { ::core::slice::from_raw_parts(strides, strides_count) },
                if target_count == 0 { &[] } else { ::core::slice::from_raw_parts(target, target_count) },
                if new_strides_count == 0 {
                    &mut []
                } else {
                    ::core::slice::from_raw_parts_mut(new_strides, new_strides_count)
                },
            )
        }
    }

    /// # Safety
    ///
    /// Each pointer is aligned and leads to as many items as its count says. That of an empty list isn't looked at.
    #[unsafe(no_mangle)]
    pub unsafe extern "C" fn nd_reshape(
        shape: *const usize,
        shape_count: usize,
        strides: *const usize,
        strides_count: usize,
        new_shape: *const usize,
        new_shape_count: usize,
        order: i32,
        new_strides: *mut MaybeUninit<usize>,
        new_strides_count: usize,
    ) -> i32 {
        unsafe {
            super::nd_reshape(
                if shape_count == 0 { &[] } else { ::core::slice::from_raw_parts(shape, shape_count) },
                if strides_count == 0 { &[] } else { ::core::slice::from_raw_parts(strides, strides_count) },
                if new_shape_count == 0 { &[] } else { ::core::slice::from_raw_parts(new_shape, new_shape_count) },
                order,
                if new_strides_count == 0 {
                    &mut []
                } else {
                    ::core::slice::from_raw_parts_mut(new_strides, new_strides_count)
                },
            )
        }
    }

    /// # Safety
    ///
    /// Each pointer is aligned and leads to as many items as its count says. That of an empty list isn't looked at.
    #[unsafe(no_mangle)]
    pub unsafe extern "C" fn nd_permuted_axes(
        shape: *const usize,
        shape_count: usize,
        strides: *const usize,
        strides_count: usize,
        axes: *const usize,
        axes_count: usize,
        new_shape: *mut MaybeUninit<usize>,
        new_shape_count: usize,
        new_strides: *mut MaybeUninit<usize>,
        new_strides_count: usize,
    ) -> i32 {
        unsafe {
            super::nd_permuted_axes(
                if shape_count == 0 { &[] } else { ::core::slice::from_raw_parts(shape, shape_count) },
                if strides_count == 0 { &[] } else { ::core::slice::from_raw_parts(strides, strides_count) },
                if axes_count == 0 { &[] } else { ::core::slice::from_raw_parts(axes, axes_count) },
                if new_shape_count == 0 {
                    &mut []
                } else {
                    ::core::slice::from_raw_parts_mut(new_shape, new_shape_count)
                },
                if new_strides_count == 0 {
                    &mut []
                } else {
                    ::core::slice::from_raw_parts_mut(new_strides, new_strides_count)
                },
            )
        }
    }
}
