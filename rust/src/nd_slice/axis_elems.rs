// Made by `rust/erase` of `crates/nd_slice/src/axis_elems.rt`: edit that.
//! The elements of a slice argument that are for the axes of a shape.

use crate::nd_slice::elem::SliceInfoElem;
use core::iter::FusedIterator;
use core::slice::Iter;

/// Iterator over the elements that are for an axis of a shape, each with the length of its axis: all but the new axes,
/// as long as there is an axis. The project's own.
pub struct AxisElems<'a> {
    // The lengths of the axes that are left, and the elements that are.
    shape: Iter<'a, usize>,
    elems: Iter<'a, SliceInfoElem>,
}

impl<'a> AxisElems<'a> {
    /// The elements for the axes of a shape. Each element but a new axis is for the next axis.
    ///
    /// `2..,NewAxis,5` on `[4,7]`: 4 with `2..`, 7 with 5. The project's own.
    ///
    /// <details><summary>Contract (proved)</summary>
    ///
    /// ```text
    /// ensures result ≡ axis_elems shape.now elems.now
    /// ```
    /// [How to read it](crate::contracts)
    /// </details>
    #[must_use]
    #[inline(always)]
    pub fn new(shape: &'a [usize], elems: &'a [SliceInfoElem]) -> Self {
        AxisElems { shape: shape.iter(), elems: elems.iter() }
    }
}

impl Iterator for AxisElems<'_> {
    type Item = (usize, SliceInfoElem);

    #[inline(always)]
    fn next(&mut self) -> Option<(usize, SliceInfoElem)> {
        while let Some(elem) = self.elems.next() {
            if !elem.is_new_axis() {
                return Some((*self.shape.next()?, *elem));
            }
        }
        None
    }
}

impl FusedIterator for AxisElems<'_> {}
