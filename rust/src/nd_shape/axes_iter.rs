// Made by `rust/erase` of `crates/nd_shape/src/axes_iter.rt`: edit that.
//! Iterators over the axes of a layout.

use crate::nd_base::{Axis, signed};
use core::iter::FusedIterator;

/// An axis, its length, and its stride in elements. ndarray's `AxisDescription`.
#[derive(Clone, Copy, Debug)]
pub struct AxisDescription {
    /// The axis.
    pub axis: Axis,
    /// The length.
    pub len: usize,
    /// The stride in elements, with its sign.
    pub stride: isize,
}

/// Iterator over the axes of a layout, from either end. ndarray's `Axes`.
#[derive(Clone, Copy, Debug)]
pub struct Axes<'a> {
    // The number of the first axis that is left, and the lengths and strides from it on.
    first: usize,
    lens: &'a [usize],
    strides: &'a [usize],
}

impl<'a> Axes<'a> {
    /// The axes of these lengths and strides.
    ///
    /// <details><summary>Contract (proved)</summary>
    ///
    /// ```text
    /// requires length lens.now ≡ length strides.now
    /// ensures axes_left result ≡ axes lens.now (all_signed strides.now)
    /// ```
    /// [How to read it](crate::contracts)
    /// </details>
    #[inline]
    pub(crate) fn new(lens: &'a [usize], strides: &'a [usize]) -> Self {
        Axes { first: 0, lens, strides }
    }
}

impl Iterator for Axes<'_> {
    type Item = AxisDescription;

    #[inline]
    fn next(&mut self) -> Option<AxisDescription> {
        let (len, lens) = self.lens.split_first()?;
        let (stride, strides) = self.strides.split_first()?;
        let axis = Axis(self.first);
        *self = Axes { first: self.first + 1, lens, strides };
        Some(AxisDescription { axis, len: *len, stride: signed(*stride) })
    }

    #[inline]
    fn size_hint(&self) -> (usize, Option<usize>) {
        let len = self.lens.len();
        (len, Some(len))
    }
}

impl DoubleEndedIterator for Axes<'_> {
    #[inline]
    fn next_back(&mut self) -> Option<AxisDescription> {
        let (len, lens) = self.lens.split_last()?;
        let (stride, strides) = self.strides.split_last()?;
        *self = Axes { first: self.first, lens, strides };
        Some(AxisDescription { axis: Axis(self.first + lens.len()), len: *len, stride: signed(*stride) })
    }
}

impl ExactSizeIterator for Axes<'_> {
    #[inline]
    fn len(&self) -> usize {
        self.lens.len()
    }
}

impl FusedIterator for Axes<'_> {}
