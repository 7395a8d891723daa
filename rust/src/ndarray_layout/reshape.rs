// Made by `rust/erase` of `crates/ndarray_layout/src/reshape.rt`: edit that.
//! Reshapes of layouts that leave the data where it lies. One pass over the axes of both shapes, in the order of reading, finds the
//! strides.

use crate::nd_base::{ErrorKind, LayoutError, Lengths, Order, ShapeError, from_kind, is_multiple};

/// A layout, the shape that takes its places, and the order in which the axes of both are read.
#[derive(Clone, Copy)]
struct Shapes<'a> {
    order: Order,
    from: &'a [usize],
    strides: &'a [usize],
    to: &'a [usize],
}

/// How far two shapes are read: so many axes of each.
#[derive(Clone, Copy)]
struct Reached {
    from_axes: usize,
    to_axes: usize,
}

/// Axes of both shapes, up to an end, that have as many indices. Those of the layout are one axis of this stride.
#[derive(Clone, Copy)]
struct Block {
    end: Reached,
    stride: usize,
}

/// The number of an axis, which is read after so many others.
///
/// <details><summary>Contract (proved)</summary>
///
/// ```text
/// requires axis < length items.now
/// ensures drop axis (as_read order items.now) ≡ result ∷ drop (axis + 1) (as_read order items.now)
/// ```
/// [How to read it](crate::contracts)
/// </details>
#[inline(always)]
fn item(order: Order, items: &[usize], axis: usize) -> usize {
    match order {
        Order::RowMajor => items[axis],
        Order::ColumnMajor => items[items.len() - 1 - axis],
    }
}

/// Writes the stride of an axis, which is read after so many others.
///
/// <details><summary>Contract (proved)</summary>
///
/// ```text
/// requires axis < length out.old
/// ensures written: Writes (length out.old - (axis + 1)) (stride ∷ []) (as_read order out.old) (as_read order out.new)
/// ensures room: length out.new ≡ length out.old
/// ```
/// [How to read it](crate::contracts)
/// </details>
#[inline(always)]
fn write(order: Order, out: &mut [usize], axis: usize, stride: usize) {
    match order {
        Order::RowMajor => out[axis] = stride,
        Order::ColumnMajor => {
            let last = out.len() - 1;
            out[last - axis] = stride;
        }
    }
}

/// Reads axes of both shapes until they have as many indices.
///
/// Errors: `IncompatibleLayout` or `IncompatibleShape`, that of the whole reshape.
///
/// <details><summary>Contract (proved)</summary>
///
/// ```text
/// requires same_count: length both.now.from.now ≡ length both.now.strides.now
/// requires from_left: at.from_axes < length both.now.from.now
/// requires to_left: at.to_axes < length both.now.to.now
/// requires heads: AreHeads (left_at both.now at)
/// ensures fault: IfErr result (λ kind. fault_of (left_at both.now at) ≡ Some kind)
/// ensures block: IfOk result (λ block.
///     IsBlock (left_at both.now at) (signed_reading block.stride) (left_at both.now block.end))
/// ensures ahead: IfOk result (λ block. (at.from_axes < block.end.from_axes)
///     × (at.to_axes < block.end.to_axes) × (block.end.to_axes ≤ length both.now.to.now))
/// ```
/// [How to read it](crate::contracts)
/// </details>
#[inline(always)]
fn next_block(both: &Shapes<'_>, at: Reached) -> Result<Block, ShapeError> {
    let mut len = item(both.order, both.from, at.from_axes);
    let mut stride = item(both.order, both.strides, at.from_axes);
    let mut new_len = item(both.order, both.to, at.to_axes);
    let mut end = Reached { from_axes: at.from_axes + 1, to_axes: at.to_axes + 1 };
    while len != new_len {
        if len > new_len {
            if end.to_axes >= both.to.len() {
                return Err(from_kind(ErrorKind::IncompatibleShape));
            }
            new_len *= item(both.order, both.to, end.to_axes);
            end.to_axes += 1;
            continue;
        }
        if end.from_axes >= both.from.len() {
            return Err(from_kind(ErrorKind::IncompatibleShape));
        }
        let next_len = item(both.order, both.from, end.from_axes);
        if next_len > 1 {
            let next = item(both.order, both.strides, end.from_axes);
            if !is_multiple(stride, next_len, next) {
                return Err(from_kind(ErrorKind::IncompatibleLayout));
            }
            stride = next;
        }
        len *= next_len;
        end.from_axes += 1;
    }
    Ok(Block { end, stride })
}

/// Writes the strides of the axes from `start` up to `end`, which are iterated over as one, from that of the last one on.
///
/// <details><summary>Contract (proved)</summary>
///
/// ```text
/// requires ahead: start < end
/// requires within: end ≤ length both.now.to.now
/// requires room: length out.old ≡ length both.now.to.now
/// requires fits: All (FitsSigned w64) (block_strides
///     (segment start end (as_read both.now.order both.now.to.now)) (signed_reading stride))
/// ensures written: WritesBlock (length both.now.to.now - end) (block_strides
///     (segment start end (as_read both.now.order both.now.to.now)) (signed_reading stride))
///     (as_read both.now.order out.old) (as_read both.now.order out.new)
/// ensures room: length out.new ≡ length out.old
/// ```
/// [How to read it](crate::contracts)
/// </details>
#[inline(always)]
fn write_block(both: &Shapes<'_>, out: &mut [usize], start: usize, end: usize, stride: usize) {
    write(both.order, out, end - 1, stride);
    let mut stride = stride;
    for axis in (start + 1..end).rev() {
        // Both are read as signed numbers, whose product fits and has these bits.
        stride = stride.wrapping_mul(item(both.order, both.to, axis));
        write(both.order, out, axis - 1, stride);
    }
}

/// Reads both shapes further, where both have axes left, and writes the strides of the new axes that it reads.
///
/// Errors: `IncompatibleLayout` or `IncompatibleShape`, that of the whole reshape.
///
/// <details><summary>Contract (proved)</summary>
///
/// ```text
/// requires same_count: length both.now.from.now ≡ length both.now.strides.now
/// requires from_left: at.from_axes < length both.now.from.now
/// requires to_left: at.to_axes < length both.now.to.now
/// requires room: length out.old ≡ length both.now.to.now
/// requires can_match: CanMatch (left_at both.now at)
/// ensures fault: IfErr result (λ kind. fault_of (left_at both.now at) ≡ Some kind)
/// ensures turn: IfOk result (λ next. IsTurn (left_at both.now at) (as_read both.now.order out.old)
///     (left_at both.now next) (as_read both.now.order out.new))
/// ensures further: IfOk result (λ next. at.from_axes + at.to_axes < next.from_axes + next.to_axes)
/// ensures room: length out.new ≡ length out.old
/// ```
/// [How to read it](crate::contracts)
/// </details>
#[inline(always)]
fn advance(both: &Shapes<'_>, out: &mut [usize], at: Reached) -> Result<Reached, ShapeError> {
    let len = item(both.order, both.from, at.from_axes);
    let new_len = item(both.order, both.to, at.to_axes);
    if len == new_len {
        let stride = item(both.order, both.strides, at.from_axes);
        write(both.order, out, at.to_axes, stride);
        return Ok(Reached { from_axes: at.from_axes + 1, to_axes: at.to_axes + 1 });
    }
    if len == 1 {
        return Ok(Reached { from_axes: at.from_axes + 1, ..at });
    }
    if new_len == 1 {
        write(both.order, out, at.to_axes, 1);
        return Ok(Reached { to_axes: at.to_axes + 1, ..at });
    }
    let block = next_block(both, at)?;
    write_block(both, out, at.to_axes, block.end.to_axes, block.stride);
    Ok(block.end)
}

/// Reads the axes that the old shape has left, once the new one has none.
///
/// Errors: `IncompatibleShape` where one of them is longer than 1, that of the whole reshape.
///
/// <details><summary>Contract (proved)</summary>
///
/// ```text
/// requires same_count: length both.now.from.now ≡ length both.now.strides.now
/// requires over: at.from_axes < length both.now.from.now → length both.now.to.now ≤ at.to_axes
/// requires can_match: CanMatch (left_at both.now at)
/// ensures fault: IfErr result (λ kind. fault_of (left_at both.now at) ≡ Some kind)
/// ensures goes_on: IfOk result (λ next. GoesOn (left_at both.now at) (λ strides. strides) (left_at both.now next))
/// ensures over: IfOk result (λ next. (length both.now.from.now ≤ next.from_axes) × (next.to_axes ≡ at.to_axes))
/// ```
/// [How to read it](crate::contracts)
/// </details>
#[inline(always)]
fn pass_ones(both: &Shapes<'_>, at: Reached) -> Result<Reached, ShapeError> {
    let mut from_axes = at.from_axes;
    while from_axes < both.from.len() {
        if item(both.order, both.from, from_axes) != 1 {
            return Err(from_kind(ErrorKind::IncompatibleShape));
        }
        from_axes += 1;
    }
    Ok(Reached { from_axes, ..at })
}

/// Writes the strides of the axes that the new shape has left, once the old one has none.
///
/// Errors: `IncompatibleShape` where one of them is longer than 1, that of the whole reshape.
///
/// <details><summary>Contract (proved)</summary>
///
/// ```text
/// requires over: length both.now.from.now ≤ at.from_axes
/// requires room: length out.old ≡ length both.now.to.now
/// requires can_match: CanMatch (left_at both.now at)
/// ensures fault: IfErr result (λ kind. fault_of (left_at both.now at) ≡ Some kind)
/// ensures turn: OnOk result (IsTurn (left_at both.now at) (as_read both.now.order out.old)
///     (left_in both.now at.from_axes (length both.now.to.now)) (as_read both.now.order out.new))
/// ensures room: length out.new ≡ length out.old
/// ```
/// [How to read it](crate::contracts)
/// </details>
#[inline(always)]
fn write_ones(both: &Shapes<'_>, out: &mut [usize], at: Reached) -> Result<(), ShapeError> {
    for axis in at.to_axes..both.to.len() {
        if item(both.order, both.to, axis) != 1 {
            return Err(from_kind(ErrorKind::IncompatibleShape));
        }
        write(both.order, out, axis, 1);
    }
    Ok(())
}

/// Writes the strides of a reshape.
///
/// Errors: `IncompatibleLayout` where a joint is bad, then `IncompatibleShape` where the sizes differ.
///
/// <details><summary>Contract (proved)</summary>
///
/// ```text
/// requires same_count: length both.now.from.now ≡ length both.now.strides.now
/// requires can_match: CanMatch (left_in both.now 0 0)
/// requires room: length out.old ≡ length both.now.to.now
/// ensures fault: IfErr result (λ kind. fault_of (left_in both.now 0 0) ≡ Some kind)
/// ensures fits: OnOk result (fault_of (left_in both.now 0 0) ≡ None)
/// ensures strides: OnOk result (all_signed (as_read both.now.order out.new) ≡ forced (left_in both.now 0 0))
/// ensures room: length out.new ≡ length out.old
/// ```
/// [How to read it](crate::contracts)
/// </details>
#[inline(always)]
fn fill(both: &Shapes<'_>, out: &mut [usize]) -> Result<(), ShapeError> {
    let mut at = Reached { from_axes: 0, to_axes: 0 };
    while at.from_axes < both.from.len() && at.to_axes < both.to.len() {
        at = advance(both, out, at)?;
    }
    at = pass_ones(both, at)?;
    write_ones(both, out, at)?;
    Ok(())
}

/// Writes the strides of a reshape, with a copy of the pass for each order.
///
/// Errors: `IncompatibleLayout` where a joint is bad, then `IncompatibleShape` where the sizes differ.
///
/// <details><summary>Contract (proved)</summary>
///
/// ```text
/// requires valid: IsValidLayout from.now (all_signed strides.now)
/// requires from_some: is_empty from.now ≡ false
/// requires to_some: is_empty to.now ≡ false
/// requires to_fits: nonzero_size to.now ≤ limit
/// requires room: length out.old ≡ length to.now
/// ensures fault: IfErr result (λ kind. reshape_fault order from.now (all_signed strides.now) to.now ≡ Some kind)
/// ensures fits: OnOk result (reshape_fault order from.now (all_signed strides.now) to.now ≡ None)
/// ensures strides: OnOk result (all_signed out.new ≡ forced_strides order from.now (all_signed strides.now) to.now)
/// ensures room: length out.new ≡ length out.old
/// ```
/// [How to read it](crate::contracts)
/// </details>
#[inline(always)]
fn fill_reshaped(
    order: Order,
    from: &[usize],
    strides: &[usize],
    to: &[usize],
    out: &mut [usize],
) -> Result<(), ShapeError> {
    match order {
        Order::RowMajor => {
            let both = Shapes { order: Order::RowMajor, from, strides, to };
            fill(&both, out)
        }
        Order::ColumnMajor => {
            let both = Shapes { order: Order::ColumnMajor, from, strides, to };
            fill(&both, out)
        }
    }
}

/// The strides along which another shape has a layout's elements in an order, with none moved.
///
/// `from` and `strides` are the layout, `to` is the shape; strides are in elements and with their
/// sign (`signed`). Axes are read from the slowest one on: in column-major order the last one comes
/// first. A joint is the place between two axes of `from` of length greater than 1, where
/// the stride of the earlier one, as they are read in the order, is not the length of the later one
/// times its stride. Strides exist, any whole numbers, if and only if the sizes agree and each
/// joint lies between two axes of `to` as well; on axes of length greater than 1 there is one
/// choice alone. An axis of length 1 takes the stride of the axis of length 1 of `from` that stands
/// at the same product of lengths read, the first one that of the first one and so on, and 1 where
/// `from` has fewer there; at a product that `from` doesn't have it takes the stride of the axis
/// read before it.
///
/// `[2,3]` with strides `[3,1]` to `[3,2]`: `[2,1]` in row-major order, `IncompatibleLayout` in
/// column-major order. ndarray's `reshape_dim`.
///
/// # Errors
///
/// Out of memory, before any other, and never where `E` fixes the count of axes or `to` has at most
/// 4; then `IncompatibleLayout` where a joint before the size of `to` lies within an axis of `to`;
/// then `IncompatibleShape` where the sizes differ.
///
/// # Conditions
///
/// The caller ensures that the layout is valid, that the size of `to` is at most `isize::MAX`, and that no length is 0.
/// Otherwise this call or a later one panics or returns unspecified values.
///
/// # Examples
///
/// ```
/// use ndarray_layout::{ErrorKind, Ix2, LayoutError, Order, from_kind, reshape_dim};
///
/// # fn main() -> Result<(), LayoutError> {
/// let (shape, strides) = (Ix2(2, 3), Ix2(3, 1));
/// assert_eq!(reshape_dim(&shape, &strides, &Ix2(3, 2), Order::RowMajor)?, Ix2(2, 1));
/// let refused = reshape_dim(&shape, &strides, &Ix2(3, 2), Order::ColumnMajor);
/// assert_eq!(refused.err(), Some(from_kind(ErrorKind::IncompatibleLayout).into()));
/// # Ok(())
/// # }
/// ```
///
/// <details><summary>Contract (proved)</summary>
///
/// ```text
/// requires valid: IsValidLayout (D.list from.now) (all_signed (D.list strides.now))
/// requires from_some: is_empty (D.list from.now) ≡ false
/// requires to_some: is_empty (E.list to.now) ≡ false
/// requires to_fits: nonzero_size (E.list to.now) ≤ limit
/// ensures fits: OnOk result (reshape_fault order
///     (D.list from.now) (all_signed (D.list strides.now)) (E.list to.now) ≡ None)
/// ensures fault: IfErr result (λ e. IsErrorFor (reshape_fault order
///     (D.list from.now) (all_signed (D.list strides.now)) (E.list to.now)) e)
/// ensures memory: NeedsNoMemory E.NDIM (length (E.list to.now)) → IfErr result IsOfShape
/// ensures strides: IfOk result (λ others. all_signed (E.list others) ≡ forced_strides order
///     (D.list from.now) (all_signed (D.list strides.now)) (E.list to.now))
/// ensures keeps: IfOk result (λ others. Keeps order
///     (D.list from.now) (all_signed (D.list strides.now))
///     (E.list to.now) (all_signed (E.list others)))
/// ensures complete: (reshape_fault order
///     (D.list from.now) (all_signed (D.list strides.now)) (E.list to.now) ≡ None)
///     ↔ ((others : List ℤ) × Keeps order
///     (D.list from.now) (all_signed (D.list strides.now)) (E.list to.now) others)
/// ensures forced: (others : List ℤ) →
///     Keeps order (D.list from.now) (all_signed (D.list strides.now)) (E.list to.now) others →
///     AgreeOnLonger (E.list to.now) others
///     (forced_strides order (D.list from.now) (all_signed (D.list strides.now)) (E.list to.now))
/// ```
/// [How to read it](crate::contracts)
/// </details>
#[inline]
pub fn reshape_dim<D: Lengths, E: Lengths>(from: &D, strides: &D, to: &E, order: Order) -> Result<E, LayoutError> {
    let mut others = E::zeros(to.ndim())?;
    fill_reshaped(order, from.slice(), strides.slice(), to.slice(), others.slice_mut())?;
    Ok(others)
}
