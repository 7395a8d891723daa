// Made by `rust/erase` of `crates/ndarray_layout/src/strided/alike_rows.rt`: edit that.
//! The rows of views of one shape, joined alike.

use crate::nd_base::{Lengths, Order};
use crate::ndarray_layout::strided::Strided;
use crate::ndarray_layout::strided::joined_layouts::{InLists, joined_in_each};
use crate::ndarray_layout::strided::rows::{Rows, as_one_axis};

/// The rows of a layout from a place on, along its fastest axes as one: `joined` is what `joined_in_each` returns, and `stride` what it
/// writes for the layout. So the rows of layouts that were joined in one call are alike: as many of each, and of the same lengths.
///
/// Takes no memory. A row costs as much as one of `joined_rows`.
///
/// `[2,3]` with `[5,1]` from 7, of which 1 axis is one of length 3 with the stride 1: 3 places from 7 and 3 from 12. The project's own.
///
/// # Conditions
///
/// The caller ensures that the layout is valid from there on, and was joined so. Otherwise this call or a later one
/// panics or returns unspecified values.
///
/// <details><summary>Contract (proved)</summary>
///
/// ```text
/// requires is_view: IsView (view_of start lens.now strides.now)
/// requires few: joined.0 ≤ length lens.now
/// requires joined: IsJoined order lens.now strides.now joined.0 joined.1 stride
/// ensures places: rows_places result ≡ view_places order (view_of start lens.now strides.now)
/// ensures lens: map (λ row. row.len) result ≡ row_lens order lens.now joined.0 joined.1
/// ensures some: All (λ row. 0 < row.len) result
/// ensures longest: (len : ℕ) → len ≤ joined.1 → All (λ row. len ≤ row.len) result
/// ```
/// [How to read it](crate::contracts)
/// </details>
#[inline]
#[must_use]
pub fn rows_along<'a>(
    order: Order,
    start: usize,
    lens: &'a [usize],
    strides: &'a [usize],
    joined: (usize, usize),
    stride: usize,
) -> Rows<'a> {
    let axis = as_one_axis(order, lens, strides, joined, stride);
    Rows::along_axis(order, start, axis)
}

impl<D: Lengths> Strided<D> {
    /// Iterators over the places of this view and of another one of its shape as rows that are alike: as many rows of each, and
    /// each as long as that of the other. The same index lies at the same place of both.
    ///
    /// Axes are joined, as `joined_rows` joins them, where one goes on where the next faster one ends in both views. So
    /// no longer rows begin both.
    ///
    /// Takes no memory. A row of each costs as much as one of `joined_rows`.
    ///
    /// `[2,3]` with strides `[3,1]` from 0 beside `[5,1]` from 0: 3 places from 0 and 3 from 3 beside those from 0 and from 5;
    /// beside itself 6 places from 0. The project's own, for what ndarray's `Zip` does.
    ///
    /// # Conditions
    ///
    /// The caller ensures that both views have one shape. Otherwise this call or a later one panics or returns
    /// unspecified values.
    ///
    /// # Examples
    ///
    /// ```
    /// use ndarray_layout::{CanIndexCheckMode, Ix2, LayoutError, Order, Strided};
    ///
    /// # fn main() -> Result<(), LayoutError> {
    /// let mode = CanIndexCheckMode::ReadOnly;
    /// let dense = Strided::new(Ix2(2, 3), Ix2(3, 1), 1, 6, mode)?;
    /// let padded = Strided::new(Ix2(2, 3), Ix2(5, 1), 1, 8, mode)?;
    /// let (rows, others) = dense.joined_rows_with(&padded, Order::RowMajor);
    /// assert!(rows.zip(others).map(|(row, other)| (row.start, other.start, row.len)).eq([(0, 0, 3), (3, 5, 3)]));
    /// let (rows, _) = dense.joined_rows_with(&dense, Order::RowMajor);
    /// assert!(rows.map(|row| row.len).eq([6]));
    /// # Ok(())
    /// # }
    /// ```
    ///
    /// <details><summary>Contract (proved)</summary>
    ///
    /// ```text
    /// requires shape: self.now.shape ≡ other.now.shape
    /// ensures first: rows_places result.0 ≡ view_places order self.now
    /// ensures second: rows_places result.1 ≡ view_places order other.now
    /// ensures alike: map (λ row. row.len) result.0 ≡ map (λ row. row.len) result.1
    /// ensures some: All (λ row. 0 < row.len) result.0
    /// ensures longest: (one another : Row) → BeginsAsRow (view_places order self.now) one
    ///     → BeginsAsRow (view_places order other.now) another → one.len ≡ another.len
    ///     → All (λ row. one.len ≤ row.len) result.0
    /// ```
    /// [How to read it](crate::contracts)
    /// </details>
    #[inline]
    #[must_use]
    pub fn joined_rows_with<'a>(&'a self, other: &'a Strided<D>, order: Order) -> (Rows<'a>, Rows<'a>) {
        let lens = self.dim.slice();
        let strides = [self.strides.slice(), other.strides.slice()];
        let mut along = [0; 2];
        let joined = joined_in_each(order, lens, &InLists { lists: &strides }, &mut along);
        (
            rows_along(order, self.start, lens, strides[0], joined, along[0]),
            rows_along(order, other.start, lens, strides[1], joined, along[1]),
        )
    }

    /// Iterators over the places of this view and of two others of its shape as rows that are alike, as `joined_rows_with` gives
    /// those of two: axes are joined where one goes on where the next faster one ends in all three.
    ///
    /// Takes no memory. A row of each costs as much as one of `joined_rows`.
    ///
    /// `[2,3]` with strides `[3,1]` from 0, beside itself and `[5,1]` from 0: 3 places from 0 and 3 from 3, the same, and those from
    /// 0 and from 5. The project's own, for what ndarray's `Zip` does.
    ///
    /// # Conditions
    ///
    /// The caller ensures that the views have one shape. Otherwise this call or a later one panics or returns
    /// unspecified values.
    ///
    /// # Examples
    ///
    /// ```
    /// use ndarray_layout::{CanIndexCheckMode, Ix2, LayoutError, Order, Strided};
    ///
    /// # fn main() -> Result<(), LayoutError> {
    /// let mode = CanIndexCheckMode::ReadOnly;
    /// let dense = Strided::new(Ix2(2, 3), Ix2(3, 1), 1, 6, mode)?;
    /// let padded = Strided::new(Ix2(2, 3), Ix2(5, 1), 1, 8, mode)?;
    /// let (rows, _, others) = dense.joined_rows_with_two(&dense, &padded, Order::RowMajor);
    /// assert!(rows.zip(others).map(|(row, other)| (row.start, other.start, row.len)).eq([(0, 0, 3), (3, 5, 3)]));
    /// let (rows, _, _) = dense.joined_rows_with_two(&dense, &dense, Order::RowMajor);
    /// assert!(rows.map(|row| row.len).eq([6]));
    /// # Ok(())
    /// # }
    /// ```
    ///
    /// <details><summary>Contract (proved)</summary>
    ///
    /// ```text
    /// requires shape: self.now.shape ≡ other.now.shape
    /// requires also: self.now.shape ≡ third.now.shape
    /// ensures first: rows_places result.0 ≡ view_places order self.now
    /// ensures second: rows_places result.1 ≡ view_places order other.now
    /// ensures third: rows_places result.2 ≡ view_places order third.now
    /// ensures alike: map (λ row. row.len) result.0 ≡ map (λ row. row.len) result.1
    /// ensures also: map (λ row. row.len) result.0 ≡ map (λ row. row.len) result.2
    /// ensures some: All (λ row. 0 < row.len) result.0
    /// ensures longest: (one another last : Row) → BeginsAsRow (view_places order self.now) one
    ///     → BeginsAsRow (view_places order other.now) another → BeginsAsRow (view_places order third.now) last
    ///     → one.len ≡ another.len → one.len ≡ last.len → All (λ row. one.len ≤ row.len) result.0
    /// ```
    /// [How to read it](crate::contracts)
    /// </details>
    #[inline]
    #[must_use]
    pub fn joined_rows_with_two<'a>(
        &'a self,
        other: &'a Strided<D>,
        third: &'a Strided<D>,
        order: Order,
    ) -> (Rows<'a>, Rows<'a>, Rows<'a>) {
        let lens = self.dim.slice();
        let strides = [self.strides.slice(), other.strides.slice(), third.strides.slice()];
        let mut along = [0; 3];
        let joined = joined_in_each(order, lens, &InLists { lists: &strides }, &mut along);
        (
            rows_along(order, self.start, lens, strides[0], joined, along[0]),
            rows_along(order, other.start, lens, strides[1], joined, along[1]),
            rows_along(order, third.start, lens, strides[2], joined, along[2]),
        )
    }
}
