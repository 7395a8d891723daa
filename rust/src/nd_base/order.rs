// Made by `rust/erase` of `crates/nd_base/src/order.rt`: edit that.
//! In which order the indices of a shape are read.

/// The order in which the indices of a shape are read: row-major, in which the last axis moves
/// fastest, or column-major, in which the first one does. ndarray's `Order`.
#[derive(Clone, Copy, PartialEq, Eq, Debug)]
pub enum Order {
    /// The last axis moves fastest.
    RowMajor,
    /// The first axis moves fastest.
    ColumnMajor,
}

impl Order {
    /// Row-major order under C's name. ndarray's `Order::C`.
    pub const C: Order = Order::RowMajor;

    /// Column-major order under Fortran's name. ndarray's `Order::F`.
    pub const F: Order = Order::ColumnMajor;

    /// Whether the last axis moves fastest. ndarray's `is_row_major`.
    ///
    /// <details><summary>Contract (proved)</summary>
    ///
    /// ```text
    /// ensures IsTrue result ↔ (self ≡ Order.RowMajor)
    /// ```
    /// [How to read it](crate::contracts)
    /// </details>
    #[must_use]
    #[inline]
    pub const fn is_row_major(self) -> bool {
        matches!(self, Order::RowMajor)
    }

    /// Whether the first axis moves fastest. ndarray's `is_column_major`.
    ///
    /// <details><summary>Contract (proved)</summary>
    ///
    /// ```text
    /// ensures IsTrue result ↔ (self ≡ Order.ColumnMajor)
    /// ```
    /// [How to read it](crate::contracts)
    /// </details>
    #[must_use]
    #[inline]
    pub const fn is_column_major(self) -> bool {
        matches!(self, Order::ColumnMajor)
    }

    /// Row-major order where the argument is true, and else column-major order. ndarray's
    /// `row_major`.
    ///
    /// <details><summary>Contract (proved)</summary>
    ///
    /// ```text
    /// ensures result ≡ (if row_major then Order.RowMajor else Order.ColumnMajor)
    /// ```
    /// [How to read it](crate::contracts)
    /// </details>
    #[must_use]
    #[inline]
    pub const fn row_major(row_major: bool) -> Order {
        if row_major { Order::RowMajor } else { Order::ColumnMajor }
    }

    /// Column-major order where the argument is true, and else row-major order. ndarray's
    /// `column_major`.
    ///
    /// <details><summary>Contract (proved)</summary>
    ///
    /// ```text
    /// ensures result ≡ (if column_major then Order.ColumnMajor else Order.RowMajor)
    /// ```
    /// [How to read it](crate::contracts)
    /// </details>
    #[must_use]
    #[inline]
    pub const fn column_major(column_major: bool) -> Order {
        if column_major { Order::ColumnMajor } else { Order::RowMajor }
    }

    /// The other order. ndarray's `transpose`.
    ///
    /// <details><summary>Contract (proved)</summary>
    ///
    /// ```text
    /// ensures other: result ≡ transposed self
    /// ensures back: transposed result ≡ self
    /// ```
    /// [How to read it](crate::contracts)
    /// </details>
    #[must_use]
    #[inline]
    pub const fn transpose(self) -> Order {
        match self {
            Order::RowMajor => Order::ColumnMajor,
            Order::ColumnMajor => Order::RowMajor,
        }
    }
}
