// Made by `rust/erase` of `crates/nd_slice/src/elem.rt`: edit that.
//! The elements of a slice argument.

mod elem_from;
mod elem_text;

/// A new axis of length 1. ndarray's `NewAxis`.
#[derive(Clone, Copy, Debug)]
pub struct NewAxis;

/// One element of a slice argument: what is picked of one axis, or a new axis. ndarray's
/// `SliceInfoElem`.
#[derive(Clone, Copy, PartialEq, Eq, Hash, Debug)]
pub enum SliceInfoElem {
    /// A range with a step, which keeps the axis.
    Slice {
        /// The first coordinate of the range.
        start: isize,
        /// The coordinate that the range stops before.
        end: Option<isize>,
        /// The distance from one pick to the next in coordinates, with its sign.
        step: isize,
    },
    /// One coordinate, counted from the end of the axis where it is negative; the axis is left out.
    Index(isize),
    /// A new axis of length 1.
    NewAxis,
}

impl SliceInfoElem {
    /// The element for one coordinate, counted from the first one.
    ///
    /// For ndarray's `From` of a `usize`.
    ///
    /// # Conditions
    ///
    /// The caller ensures that `index` is at most `isize::MAX`. Otherwise this call or a later one panics or returns
    /// unspecified values.
    ///
    /// <details><summary>Contract (proved)</summary>
    ///
    /// ```text
    /// requires index ≤ limit
    /// ensures result ≡ SliceInfoElem.Index (pos index)
    /// ```
    /// [How to read it](crate::contracts)
    /// </details>
    #[must_use]
    #[inline]
    pub fn index_usize(index: usize) -> SliceInfoElem {
        SliceInfoElem::Index(index as isize)
    }

    /// Whether it is a range with a step. ndarray's `SliceInfoElem::is_slice`.
    ///
    /// <details><summary>Contract (proved)</summary>
    ///
    /// ```text
    /// ensures result ≡ is_slice self.now
    /// ```
    /// [How to read it](crate::contracts)
    /// </details>
    #[must_use]
    #[inline]
    pub fn is_slice(&self) -> bool {
        matches!(self, SliceInfoElem::Slice { .. })
    }

    /// Whether it is one coordinate. ndarray's `SliceInfoElem::is_index`.
    ///
    /// <details><summary>Contract (proved)</summary>
    ///
    /// ```text
    /// ensures result ≡ is_index self.now
    /// ```
    /// [How to read it](crate::contracts)
    /// </details>
    #[must_use]
    #[inline]
    pub fn is_index(&self) -> bool {
        matches!(self, SliceInfoElem::Index(_))
    }

    /// Whether it is a new axis. ndarray's `SliceInfoElem::is_new_axis`.
    ///
    /// <details><summary>Contract (proved)</summary>
    ///
    /// ```text
    /// ensures result ≡ is_new_axis self.now
    /// ```
    /// [How to read it](crate::contracts)
    /// </details>
    #[must_use]
    #[inline]
    pub fn is_new_axis(&self) -> bool {
        matches!(self, SliceInfoElem::NewAxis)
    }
}
