// Made by `rust/erase` of `crates/ndarray_layout/src/strided/permuting.rt`: edit that.
//! The axes in another order.

use crate::memory::AllocError;
use crate::nd_base::{Axis, ErrorKind, LayoutError, Lengths, ShapeError, from_kind, has_axis};
use crate::ndarray_layout::strided::Strided;

/// Whether a list has an axis of this number.
///
/// <details><summary>Contract (proved)</summary>
///
/// ```text
/// ensures result ≡ list_any (λ axis. number == axis.0) axes.now
/// ```
/// [How to read it](crate::contracts)
/// </details>
#[inline]
fn has_number(axes: &[Axis], number: usize) -> bool {
    axes.iter().any(|axis| number == axis.index())
}

/// Whether a list has each of so many axes once.
///
/// <details><summary>Contract (proved)</summary>
///
/// ```text
/// ensures result ≡ is_axis_order ndim (axis_numbers axes.now)
/// ```
/// [How to read it](crate::contracts)
/// </details>
#[inline]
fn has_each_axis(ndim: usize, axes: &[Axis]) -> bool {
    if axes.len() != ndim {
        return false;
    }
    for number in 0..ndim {
        if !has_number(axes, number) {
            return false;
        }
    }
    true
}

/// Whether there is an axis of this number, without a mark.
///
/// <details><summary>Contract (proved)</summary>
///
/// ```text
/// ensures IsTrue result ↔ ((number < length marks.now) × (slice_index marks.now number ≡ 0))
/// ```
/// [How to read it](crate::contracts)
/// </details>
#[inline(always)]
fn is_unmarked(marks: &[usize], number: usize) -> bool {
    number < marks.len() && marks[number] == 0
}

/// Whether a list has each axis once, one for each mark.
///
/// # Conditions
///
/// The caller ensures that the marks are 0; it is left with any. Otherwise this call or a later one panics or returns
/// unspecified values.
///
/// <details><summary>Contract (proved)</summary>
///
/// ```text
/// requires marks.old ≡ replicate (length marks.old) 0
/// ensures result ≡ is_axis_order (length marks.old) (axis_numbers axes.now)
/// ```
/// [How to read it](crate::contracts)
/// </details>
#[inline]
fn marks_each_axis(marks: &mut [usize], axes: &[Axis]) -> bool {
    if axes.len() != marks.len() {
        return false;
    }
    for position in 0..axes.len() {
        let number = axes[position].index();
        if !is_unmarked(marks, number) {
            return false;
        }
        marks[number] = 1;
    }
    true
}

/// A list with room for the axes of a shape in the order of these ones, which has each of them once.
///
/// # Errors
///
/// `IncompatibleShape` where it hasn't; then out of memory, never where the type fixes the count of axes or there are at
/// most 4.
///
/// <details><summary>Contract (proved)</summary>
///
/// ```text
/// ensures fault: shape_fault result ≡ permute_fault (D.list shape.now) (axis_numbers axes.now)
/// ensures count: IfOk result (λ d. length (D.list d) ≡ length (D.list shape.now))
/// ensures memory: shape_fault result ≡ None → NeedsNoMemory D.NDIM (length (D.list shape.now)) → IsOk result
/// ```
/// [How to read it](crate::contracts)
/// </details>
#[inline]
fn room_for_order<D: Lengths>(shape: &D, axes: &[Axis]) -> Result<D, LayoutError> {
    let ndim = shape.ndim();
    match D::zeros(ndim) {
        Ok(room) => {
            let mut room = room;
            if marks_each_axis(room.slice_mut(), axes) {
                return Ok(room);
            }
        }
        // (without room for marks the axes are looked for one by one, since this error comes first)
        Err(out_of_memory) => {
            if has_each_axis(ndim, axes) {
                return Err(LayoutError::Memory(out_of_memory));
            }
        }
    }
    Err(LayoutError::Shape(from_kind(ErrorKind::IncompatibleShape)))
}

/// Writes the numbers of a list in the order of these axes.
///
/// <details><summary>Contract (proved)</summary>
///
/// ```text
/// requires count: length moved.old ≡ length axes.now
/// requires order: is_axis_order (length items.now) (axis_numbers axes.now) ≡ true
/// ensures moved.new ≡ in_order 0 (axis_numbers axes.now) items.now
/// ```
/// [How to read it](crate::contracts)
/// </details>
#[inline]
fn write_reordered(moved: &mut [usize], items: &[usize], axes: &[Axis]) {
    for position in 0..axes.len() {
        moved[position] = items[axes[position].index()];
    }
}

/// The numbers of a list in the order of these axes.
///
/// # Errors
///
/// Out of memory; never where the type fixes the count of axes or there are at most 4.
///
/// <details><summary>Contract (proved)</summary>
///
/// ```text
/// requires order: is_axis_order (length (D.list items.now)) (axis_numbers axes.now) ≡ true
/// ensures list: IfOk result (λ d. D.list d ≡ in_order 0 (axis_numbers axes.now) (D.list items.now))
/// ensures memory: NeedsNoMemory D.NDIM (length (D.list items.now)) → IsOk result
/// ```
/// [How to read it](crate::contracts)
/// </details>
#[inline]
fn reordered<D: Lengths>(items: &D, axes: &[Axis]) -> Result<D, AllocError> {
    let mut moved = items.duplicate()?;
    write_reordered(moved.slice_mut(), items.slice(), axes);
    Ok(moved)
}

impl<D: Lengths> Strided<D> {
    /// Swaps two axes. No element is moved.
    ///
    /// Axes 0 and 1 of `[2,3]`, `[3,1]`: `[3,2]`, `[1,3]`. ndarray's `swap_axes`.
    ///
    /// # Errors
    ///
    /// `OutOfBounds` where there is no axis of one of the numbers; the view is unchanged.
    ///
    /// # Examples
    ///
    /// ```
    /// use ndarray_layout::{Axis, CanIndexCheckMode, ErrorKind, Ix2, LayoutError, Strided, from_kind};
    ///
    /// # fn main() -> Result<(), LayoutError> {
    /// let mut view = Strided::new(Ix2(2, 3), Ix2(3, 1), 1, 6, CanIndexCheckMode::ReadOnly)?;
    /// view.swap_axes(Axis(0), Axis(1))?;
    /// assert_eq!((view.dim(), view.strides()), (&Ix2(3, 2), &Ix2(1, 3)));
    /// let refused = view.swap_axes(Axis(0), Axis(2));
    /// assert_eq!(refused.err(), Some(from_kind(ErrorKind::OutOfBounds)));
    /// # Ok(())
    /// # }
    /// ```
    ///
    /// <details><summary>Contract (proved)</summary>
    ///
    /// ```text
    /// ensures fault: result_err result ≡ swap_fault self.old.shape axis.0 other.0
    /// ensures unchanged: OnErr result (self.new ≡ self.old)
    /// ensures swapped: OnOk result (self.new ≡ swapped_of axis.0 other.0 self.old)
    /// ensures is_view: IsView self.new
    /// ensures kept: OnOk result (Descends (λ index. swap index axis.0 other.0) self.old self.new)
    /// ```
    /// [How to read it](crate::contracts)
    /// </details>
    #[inline]
    pub fn swap_axes(&mut self, axis: Axis, other: Axis) -> Result<(), ShapeError> {
        if !has_axis(self.dim.slice(), axis) || !has_axis(self.dim.slice(), other) {
            return Err(from_kind(ErrorKind::OutOfBounds));
        }
        self.dim.slice_mut().swap(axis.index(), other.index());
        self.strides.slice_mut().swap(axis.index(), other.index());
        Ok(())
    }

    /// The transpose: the axes in the opposite order. No element is moved, and no memory is taken.
    ///
    /// `[2,3]`, `[3,1]`: `[3,2]`, `[1,3]`. ndarray's `reversed_axes`.
    ///
    /// # Examples
    ///
    /// ```
    /// use ndarray_layout::{CanIndexCheckMode, Ix2, LayoutError, Strided};
    ///
    /// # fn main() -> Result<(), LayoutError> {
    /// let view = Strided::new(Ix2(2, 3), Ix2(3, 1), 1, 6, CanIndexCheckMode::ReadOnly)?;
    /// let transpose = view.reversed_axes();
    /// assert_eq!((transpose.dim(), transpose.strides()), (&Ix2(3, 2), &Ix2(1, 3)));
    /// assert_eq!((transpose.place(&(2, 1)), view.place(&(1, 2))), (Some(5), Some(5)));
    /// # Ok(())
    /// # }
    /// ```
    ///
    /// <details><summary>Contract (proved)</summary>
    ///
    /// ```text
    /// ensures reversed: result ≡ reversed_of self
    /// ensures kept: Descends reverse self result
    /// ```
    /// [How to read it](crate::contracts)
    /// </details>
    #[inline]
    #[must_use]
    pub fn reversed_axes(self) -> Self {
        let mut view = self;
        view.dim.slice_mut().reverse();
        view.strides.slice_mut().reverse();
        view
    }

    /// The axes in another order: axis `k` of the result is axis `axes[k]` of the view. No element is moved.
    ///
    /// Takes time in proportion to the count of axes; to its square where the first allocation fails.
    ///
    /// `[2,3,4]`, `[12,4,1]` by `[2,0,1]`: `[4,2,3]`, `[1,12,4]`. ndarray's `permuted_axes`.
    ///
    /// # Errors
    ///
    /// `IncompatibleShape` where the list isn't each axis once; then out of memory, never where the type
    /// fixes the count of axes or there are at most 4.
    ///
    /// # Examples
    ///
    /// ```
    /// use ndarray_layout::{Axis, CanIndexCheckMode, ErrorKind, Ix3, LayoutError, Strided, from_kind};
    ///
    /// # fn main() -> Result<(), LayoutError> {
    /// let view = Strided::new(Ix3(2, 3, 4), Ix3(12, 4, 1), 1, 24, CanIndexCheckMode::ReadOnly)?;
    /// let permuted = view.permuted_axes(&[Axis(2), Axis(0), Axis(1)])?;
    /// assert_eq!((permuted.dim(), permuted.strides()), (&Ix3(4, 2, 3), &Ix3(1, 12, 4)));
    /// let refused = view.permuted_axes(&[Axis(2), Axis(0), Axis(2)]);
    /// assert_eq!(refused.err(), Some(from_kind(ErrorKind::IncompatibleShape).into()));
    /// # Ok(())
    /// # }
    /// ```
    ///
    /// <details><summary>Contract (proved)</summary>
    ///
    /// ```text
    /// ensures fault: shape_fault result ≡ permute_fault self.now.shape (axis_numbers axes.now)
    /// ensures memory: shape_fault result ≡ None → NeedsNoMemory D.NDIM (length self.now.shape) → IsOk result
    /// ensures permuted: IfOk result (λ v. v ≡ permuted_of (axis_numbers axes.now) self.now)
    /// ensures kept: IfOk result (Descends (permute_source (axis_numbers axes.now)) self.now)
    /// ```
    /// [How to read it](crate::contracts)
    /// </details>
    #[inline]
    pub fn permuted_axes(&self, axes: &[Axis]) -> Result<Self, LayoutError> {
        let mut dim = room_for_order(&self.dim, axes)?;
        write_reordered(dim.slice_mut(), self.dim.slice(), axes);
        Ok(Strided { start: self.start, dim, strides: reordered(&self.strides, axes)? })
    }
}
