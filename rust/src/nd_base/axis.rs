// Made by `rust/erase` of `crates/nd_base/src/axis.rt`: edit that.
//! An axis of an array.

/// An axis, by its number from 0 on. ndarray's `Axis`.
#[derive(Clone, Copy, PartialEq, Eq, Hash, PartialOrd, Ord, Debug)]
pub struct Axis(pub usize);

impl Axis {
    /// The number of the axis. ndarray's `index`.
    ///
    /// <details><summary>Contract (proved)</summary>
    ///
    /// ```text
    /// ensures result ≡ self.0
    /// ```
    /// [How to read it](crate::contracts)
    /// </details>
    #[must_use]
    #[inline]
    pub fn index(self) -> usize {
        self.0
    }
}

/// Whether a shape has this axis: its number is below the count of axes. The test of what `axis_of`
/// and `set_axis_of` ask of their callers. The project's own.
///
/// <details><summary>Contract (proved)</summary>
///
/// ```text
/// ensures IsTrue result ↔ (axis.0 < length lens.now)
/// ```
/// [How to read it](crate::contracts)
/// </details>
#[must_use]
#[inline]
pub fn has_axis(lens: &[usize], axis: Axis) -> bool {
    axis.index() < lens.len()
}

/// The length of an axis.
///
/// `lens` is one length for each axis.
///
/// Axis 1 of `[2,3]`: 3. ndarray's `axis`.
///
/// # Conditions
///
/// The caller ensures that the shape has that axis (`has_axis`). Otherwise this call or a later one panics or returns
/// unspecified values.
///
/// <details><summary>Contract (proved)</summary>
///
/// ```text
/// requires axis.0 < length lens.now
/// ensures slice_get lens.now axis.0 ≡ Some result
/// ```
/// [How to read it](crate::contracts)
/// </details>
#[inline]
#[must_use]
pub fn axis_of(lens: &[usize], axis: Axis) -> usize {
    lens[axis.index()]
}

/// Gives an axis another length.
///
/// `lens` is one length for each axis.
///
/// Axis 1 of `[2,3]` to 5: `[2,5]`. ndarray's `set_axis`.
///
/// # Conditions
///
/// The caller ensures that the shape has that axis (`has_axis`). Otherwise this call or a later one panics or returns
/// unspecified values.
///
/// <details><summary>Contract (proved)</summary>
///
/// ```text
/// requires axis.0 < length lens.old
/// ensures lens.new ≡ slice_set lens.old axis.0 len
/// ```
/// [How to read it](crate::contracts)
/// </details>
#[inline]
pub fn set_axis_of(lens: &mut [usize], axis: Axis, len: usize) {
    lens[axis.index()] = len;
}
