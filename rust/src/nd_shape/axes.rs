// Made by `rust/erase` of `crates/nd_shape/src/axes.rt`: edit that.
//! The axes of a layout one by one.

use crate::nd_base::Lengths;
pub use crate::nd_shape::axes_iter::{Axes, AxisDescription};

/// Iterator over the axes of a layout with their lengths and strides, from the first axis or from
/// the last.
///
/// `dim` has the lengths and `strides` the strides in elements.
///
/// `[2,3]` with the strides `[3,1]`: 2 and 3 of axis 0, 3 and 1 of axis 1. ndarray's `axes_of`.
///
/// # Conditions
///
/// The caller ensures that there are as many strides as axes. Otherwise this call or a later one panics or returns
/// unspecified values.
///
/// <details><summary>Contract (proved)</summary>
///
/// ```text
/// requires length (D.list dim.now) ≡ length (D.list strides.now)
/// ensures list: axes_left result ≡ axes (D.list dim.now) (all_signed (D.list strides.now))
/// ensures in_order: YieldsInOrder (YieldsFirst axes_left) axes_left
/// ensures in_reverse: YieldsInReverse (YieldsLast axes_left) axes_left
/// ```
/// [How to read it](crate::contracts)
/// </details>
#[inline]
#[must_use]
pub fn axes_of<'a, D: Lengths>(dim: &'a D, strides: &'a D) -> Axes<'a> {
    Axes::new(dim.slice(), strides.slice())
}
