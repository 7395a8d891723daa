// Made by `rust/erase` of `crates/ndarray_layout/src/strided/broadcasting.rt`: edit that.
//! Views stretched to a shape, and the strides that they have then.

use crate::memory::AllocError;
use crate::nd_base::{ErrorKind, LayoutError, Lengths, ShapeError, from_kind};
use crate::nd_shape::size_of_shape_checked;
use crate::ndarray_layout::strided::Strided;

/// Whether a shape can be stretched to another one: each of its axes has a length of 1, or that of the
/// axis of the other that lies as far from the last.
///
/// <details><summary>Contract (proved)</summary>
///
/// ```text
/// ensures result ≡ takes_in shape.now view_shape.now
/// ```
/// [How to read it](crate::contracts)
/// </details>
#[inline(always)]
fn stretches_to(view_shape: &[usize], shape: &[usize]) -> bool {
    if view_shape.len() > shape.len() {
        return false;
    }
    let new_axes = shape.len() - view_shape.len();
    for axis in 0..view_shape.len() {
        if view_shape[axis] != shape[new_axes + axis] && view_shape[axis] != 1 {
            return false;
        }
    }
    true
}

/// Checks that a view of a shape can be read as one of another. Errors: `IncompatibleShape` where
/// the other is not the shape that both have in common, then `Overflow` where it is too large.
///
/// <details><summary>Contract (proved)</summary>
///
/// ```text
/// ensures result_err result ≡ broadcast_fault (E.list shape.now) view_shape.now
/// ```
/// [How to read it](crate::contracts)
/// </details>
#[inline(always)]
fn check_broadcast<E: Lengths>(view_shape: &[usize], shape: &E) -> Result<(), ShapeError> {
    if !stretches_to(view_shape, shape.slice()) {
        return Err(from_kind(ErrorKind::IncompatibleShape));
    }
    size_of_shape_checked(shape)?;
    Ok(())
}

/// Writes the strides along which a view is read as one of a shape with no fewer axes: 0 for new axes and
/// for those of another length, the view's own for the others.
///
/// <details><summary>Contract (proved)</summary>
///
/// ```text
/// requires fewer: length view_shape.now ≤ length shape.now
/// requires counts: length view_shape.now ≡ length strides.now
/// requires room: length new_strides.old ≡ length shape.now
/// ensures all_signed new_strides.new ≡ broadcast_strides shape.now view_shape.now (all_signed strides.now)
/// ```
/// [How to read it](crate::contracts)
/// </details>
#[inline(always)]
fn stretch_strides(shape: &[usize], view_shape: &[usize], strides: &[usize], new_strides: &mut [usize]) {
    let new_axes = shape.len() - view_shape.len();
    new_strides[..new_axes].fill(0);
    for axis in 0..view_shape.len() {
        let stays = shape[new_axes + axis] == view_shape[axis];
        new_strides[new_axes + axis] = if stays { strides[axis] } else { 0 };
    }
}

/// The strides along which a view is read as one of a shape with no fewer axes, as a value of the
/// shape's type (`stretch_strides`).
///
/// Errors: out of memory; never where the type fixes the count of axes or there are at most 4.
///
/// <details><summary>Contract (proved)</summary>
///
/// ```text
/// requires fewer: length view_shape.now ≤ length (E.list shape.now)
/// requires counts: length view_shape.now ≡ length strides.now
/// ensures strides: IfOk result (λ d. all_signed (E.list d) ≡
///     broadcast_strides (E.list shape.now) view_shape.now (all_signed strides.now))
/// ensures memory: NeedsNoMemory E.NDIM (length (E.list shape.now)) → IsOk result
/// ```
/// [How to read it](crate::contracts)
/// </details>
#[inline(always)]
fn stretched<E: Lengths>(shape: &E, view_shape: &[usize], strides: &[usize]) -> Result<E, AllocError> {
    let mut new_strides = E::zeros(shape.ndim())?;
    stretch_strides(shape.slice(), view_shape, strides, new_strides.slice_mut());
    Ok(new_strides)
}

/// The lengths and the strides with which a view is read as one of a shape. Errors: those of `Strided::broadcast`.
///
/// # Conditions
///
/// The caller ensures that the view has a stride for each length. Otherwise this call or a later one panics or returns
/// unspecified values.
///
/// <details><summary>Contract (proved)</summary>
///
/// ```text
/// requires counts: length view_shape.now ≡ length strides.now
/// ensures fault: shape_fault result ≡ broadcast_fault (E.list shape.now) view_shape.now
/// ensures memory: broadcast_fault (E.list shape.now) view_shape.now ≡ None →
///     NeedsNoMemory E.NDIM (length (E.list shape.now)) → IsOk result
/// ensures shape: IfOk result (λ (dim, new_strides). E.list dim ≡ E.list shape.now)
/// ensures strides: IfOk result (λ (dim, new_strides). all_signed (E.list new_strides) ≡
///     broadcast_strides (E.list shape.now) view_shape.now (all_signed strides.now))
/// ```
/// [How to read it](crate::contracts)
/// </details>
#[inline(always)]
fn broadcast_axes<E: Lengths>(shape: &E, view_shape: &[usize], strides: &[usize]) -> Result<(E, E), LayoutError> {
    check_broadcast(view_shape, shape)?;
    let new_strides = stretched(shape, view_shape, strides)?;
    let dim = shape.duplicate()?;
    Ok((dim, new_strides))
}

impl<D: Lengths> Strided<D> {
    /// The same data as a view of a shape that this view can be broadcast to.
    ///
    /// New axes come first. Along them, and along axes of length 1 that have another length in
    /// `shape`, each coordinate has the same place, and the stride is 0; the other axes keep their
    /// strides.
    ///
    /// Takes time in proportion to the count of axes.
    ///
    /// `[1,4]` with strides `[9,-1]` to `[2,3,4]`: strides `[0,0,-1]`. ndarray's `broadcast`.
    ///
    /// # Errors
    ///
    /// `IncompatibleShape` where `shape` is not the common shape of it and the view's; then
    /// `Overflow` where the product of its lengths that are not 0 is greater than `isize::MAX`;
    /// then out of memory, never where the type fixes the count of axes or there are at most 4.
    ///
    /// # Examples
    ///
    /// ```
    /// use ndarray_layout::{CanIndexCheckMode, Ix2, Ix3, LayoutError, Strided, unsigned};
    ///
    /// # fn main() -> Result<(), LayoutError> {
    /// let strides = Ix2(9, unsigned(-1));
    /// let view = Strided::new(Ix2(1, 4), strides, 1, 4, CanIndexCheckMode::ReadOnly)?;
    /// let stretched = view.broadcast(&Ix3(2, 3, 4))?;
    /// assert_eq!(stretched.strides(), &Ix3(0, 0, unsigned(-1)));
    /// assert_eq!((stretched.place(&(0, 0, 3)), stretched.place(&(1, 2, 3))), (Some(0), Some(0)));
    /// assert!(view.broadcast(&Ix2(3, 5)).is_err());
    /// # Ok(())
    /// # }
    /// ```
    ///
    /// <details><summary>Contract (proved)</summary>
    ///
    /// ```text
    /// ensures fault: shape_fault result ≡ broadcast_fault (E.list shape.now) self.now.shape
    /// ensures memory: broadcast_fault (E.list shape.now) self.now.shape ≡ None →
    ///     NeedsNoMemory E.NDIM (length (E.list shape.now)) → IsOk result
    /// ensures broadcast: IfOk result (λ v. v ≡ broadcast_of (E.list shape.now) self.now)
    /// ensures kept: IfOk result (λ v. IsViewOf (broadcast_source self.now.shape) self.now v)
    /// ```
    /// [How to read it](crate::contracts)
    /// </details>
    #[inline]
    pub fn broadcast<E: Lengths>(&self, shape: &E) -> Result<Strided<E>, LayoutError> {
        let (dim, strides) = broadcast_axes(shape, self.dim.slice(), self.strides.slice())?;
        Ok(Strided { start: self.start, dim, strides })
    }
}
