// Made by `rust/erase` of `crates/ndarray_layout/src/strided/splitting.rt`: edit that.
//! The two parts of a view that is split along an axis.

use crate::nd_base::{Axis, ErrorKind, LayoutError, Lengths, axis_of, from_kind, set_axis_of};
use crate::ndarray_layout::strided::Strided;
use crate::ndarray_layout::strided::cropping::moved_start;
use crate::ndarray_layout::strided::places::place_along_axis;

/// Whether there is an axis, and an index is at most its length.
///
/// <details><summary>Contract (proved)</summary>
///
/// ```text
/// ensures IsTrue result ↔ (split_fault shape.now axis.0 index ≡ None)
/// ```
/// [How to read it](crate::contracts)
/// </details>
#[inline]
fn can_split(shape: &[usize], axis: Axis, index: usize) -> bool {
    axis.index() < shape.len() && index <= shape[axis.index()]
}

/// The lengths with another one for an axis.
///
/// <details><summary>Contract (proved)</summary>
///
/// ```text
/// requires axis.0 < length (D.list dim)
/// ensures D.list result ≡ slice_set (D.list dim) axis.0 len
/// ```
/// [How to read it](crate::contracts)
/// </details>
#[inline]
fn with_length<D: Lengths>(dim: D, axis: Axis, len: usize) -> D {
    let mut dim = dim;
    set_axis_of(dim.slice_mut(), axis, len);
    dim
}

impl<D: Lengths> Strided<D> {
    /// The place of the first index of the part from coordinate `index` on; the start where there is no such coordinate.
    ///
    /// <details><summary>Contract (proved)</summary>
    ///
    /// ```text
    /// requires split_fault self.now.shape axis.0 index ≡ None
    /// ensures pos result ≡ second_start axis.0 index self.now
    /// ```
    /// [How to read it](crate::contracts)
    /// </details>
    #[inline]
    fn start_from(&self, axis: Axis, index: usize) -> usize {
        let len = axis_of(self.dim.slice(), axis);
        let stride = axis_of(self.strides.slice(), axis);
        place_along_axis(self.start, moved_start(index, len), stride)
    }

    /// The two parts of the view along an axis: the coordinates below `index`, and those from `index` on. No
    /// element is moved. The start of the second part moves to coordinate `index`, if there is one.
    ///
    /// Takes time in proportion to the count of axes.
    ///
    /// Axis 1 of `[2,3]`, `[3,1]` from 0 at 1: `[2,1]`, `[3,1]` from 0, and `[2,2]`, `[3,1]` from 1. ndarray's
    /// `split_at`.
    ///
    /// # Errors
    ///
    /// `OutOfBounds` where there is no such axis or the index is greater than its length; then out of memory,
    /// never where the type fixes the count of axes or there are at most 4.
    ///
    /// # Examples
    ///
    /// ```
    /// use ndarray_layout::{Axis, CanIndexCheckMode, ErrorKind, Ix2, LayoutError, Strided, from_kind};
    ///
    /// # fn main() -> Result<(), LayoutError> {
    /// let view = Strided::new(Ix2(2, 3), Ix2(3, 1), 1, 6, CanIndexCheckMode::ReadOnly)?;
    /// let (first, second) = view.split_at(Axis(1), 1)?;
    /// assert_eq!((first.start(), first.dim(), first.strides()), (0, &Ix2(2, 1), &Ix2(3, 1)));
    /// assert_eq!((second.start(), second.dim(), second.strides()), (1, &Ix2(2, 2), &Ix2(3, 1)));
    /// let refused = view.split_at(Axis(1), 4);
    /// assert_eq!(refused.err(), Some(from_kind(ErrorKind::OutOfBounds).into()));
    /// # Ok(())
    /// # }
    /// ```
    ///
    /// <details><summary>Contract (proved)</summary>
    ///
    /// ```text
    /// ensures fault: shape_fault result ≡ split_fault self.shape axis.0 index
    /// ensures memory: shape_fault result ≡ None → NeedsNoMemory D.NDIM (length self.shape) → IsOk result
    /// ensures first: IfOk result (λ (first, second). first ≡ first_part_of axis.0 index self)
    /// ensures second: IfOk result (λ (first, second). second ≡ second_part_of axis.0 index self)
    /// ensures first_kept: IfOk result (λ (first, second). Descends (λ coordinates. coordinates) self first)
    /// ensures second_kept: IfOk result (λ (first, second). Descends (second_source axis.0 index) self second)
    /// ```
    /// [How to read it](crate::contracts)
    /// </details>
    #[inline]
    pub fn split_at(self, axis: Axis, index: usize) -> Result<(Self, Self), LayoutError> {
        if !can_split(self.dim.slice(), axis, index) {
            return Err(LayoutError::Shape(from_kind(ErrorKind::OutOfBounds)));
        }
        let start = self.start_from(axis, index);
        let len = axis_of(self.dim.slice(), axis);
        let dim = self.dim.duplicate()?;
        let strides = self.strides.duplicate()?;
        let second = Strided { start, dim: with_length(dim, axis, len - index), strides };
        let Strided { start, dim, strides } = self;
        let first = Strided { start, dim: with_length(dim, axis, index), strides };
        Ok((first, second))
    }
}
