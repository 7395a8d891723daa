// Made by `rust/erase` of `crates/ndarray_layout/src/strided/nth_row.rt`: edit that.
//! One row of a view, by its number.

use crate::nd_base::{Ix1, Lengths, Order, new_ix1, signed, stride_offset, unsigned};
use crate::nd_dim::product;
use crate::ndarray_layout::strided::Strided;
use crate::ndarray_layout::strided::places::offset_place;
use crate::ndarray_layout::strided::rows::{Row, fastest_axis, split_fastest};

/// How far the index at a flat index lies from the first one, in elements.
///
/// <details><summary>Contract (proved)</summary>
///
/// ```text
/// requires valid: IsValidLayout lens.now (all_signed strides.now)
/// requires index: flat_index < size lens.now
/// ensures result ≡ offset_of (all_signed strides.now) (index_of_flat_in order lens.now flat_index)
/// ```
/// [How to read it](crate::contracts)
/// </details>
#[inline]
pub(super) fn offset_of_flat(order: Order, lens: &[usize], strides: &[usize], flat_index: usize) -> isize {
    let (mut lens, mut strides) = (lens, strides);
    let (mut offset, mut left) = (0isize, flat_index);
    'axes: while let Some(axis) = split_fastest(order, lens, strides) {
        if axis.len > 1 {
            offset += stride_offset(left % axis.len, axis.stride);
            left /= axis.len;
        }
        (lens, strides) = (axis.lens, axis.strides);
    }
    offset
}

impl<D: Lengths> Strided<D> {
    /// The row that `rows` gives after so many others; `None` where there are not so many.
    ///
    /// <details><summary>Contract (proved)</summary>
    ///
    /// ```text
    /// ensures row: result ≡ slice_get (view_rows order self.now) number
    /// ensures row_is_view: IfSome result (λ row. IsView (row_view row))
    /// ensures is_view: IsView self.now
    /// ```
    /// [How to read it](crate::contracts)
    /// </details>
    #[inline]
    pub(super) fn row_of_number(&self, order: Order, number: usize) -> Option<Row> {
        let axis = fastest_axis(order, self.dim.slice(), self.strides.slice());
        if axis.len == 0 || number >= product(axis.lens) {
            return None;
        }
        let offset = offset_of_flat(order, axis.lens, axis.strides, number);
        Some(Row { start: offset_place(self.start, offset), stride: signed(axis.stride), len: axis.len })
    }

    /// The row that `rows` gives after so many others, as a layout of one axis; `None` where there are not so many.
    ///
    /// Takes no memory. Costs a division and two products for each axis but that of the row, where `rows` costs an addition
    /// for most rows.
    ///
    /// `[2,3]` with strides `[-3,1]` from 3, at the number 1: in row-major order the shape `[3]`, from 0 by 1; in column-major
    /// order `[2]`, from 4 by -3. ndarray's `row`, of any count of axes.
    ///
    /// # Examples
    ///
    /// ```
    /// use ndarray_layout::{CanIndexCheckMode, Ix2, LayoutError, Order, Strided, unsigned};
    ///
    /// # fn main() -> Result<(), LayoutError> {
    /// let view = Strided::new(Ix2(2, 3), Ix2(unsigned(-3), 1), 1, 6, CanIndexCheckMode::ReadOnly)?;
    /// let row = view.nth_row(Order::RowMajor, 1);
    /// assert!(row.is_some_and(|row| row.iter_places(Order::RowMajor).eq([0, 1, 2])));
    /// let column = view.nth_row(Order::ColumnMajor, 1);
    /// assert!(column.is_some_and(|column| column.iter_places(Order::RowMajor).eq([4, 1])));
    /// assert!(view.nth_row(Order::RowMajor, 2).is_none());
    /// # Ok(())
    /// # }
    /// ```
    ///
    /// <details><summary>Contract (proved)</summary>
    ///
    /// ```text
    /// ensures row: result ≡ option_map row_view (slice_get (view_rows order self.now) number)
    /// ensures row_is_view: IfSome result IsView
    /// ensures is_view: IsView self.now
    /// ```
    /// [How to read it](crate::contracts)
    /// </details>
    #[inline]
    #[must_use]
    pub fn nth_row(&self, order: Order, number: usize) -> Option<Strided<Ix1>> {
        let row = self.row_of_number(order, number)?;
        Some(row.layout())
    }
}

impl Row {
    /// The row as a layout of one axis.
    ///
    /// Takes no memory.
    ///
    /// The row of the places 7 4 1: the shape `[3]`, from 7 by -3. The project's own.
    ///
    /// # Conditions
    ///
    /// The caller ensures that it has a place, that each of its places is an `isize`, and that it has no more of them
    /// than an `isize` counts. Otherwise this call or a later one panics or returns unspecified values.
    ///
    /// <details><summary>Contract (proved)</summary>
    ///
    /// ```text
    /// requires IsView (row_view self)
    /// ensures view: result ≡ row_view self
    /// ensures is_view: IsView result
    /// ```
    /// [How to read it](crate::contracts)
    /// </details>
    #[must_use]
    #[inline]
    pub fn layout(self) -> Strided<Ix1> {
        Strided { start: self.start, dim: new_ix1(self.len), strides: new_ix1(unsigned(self.stride)) }
    }
}
