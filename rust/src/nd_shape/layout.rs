// Made by `rust/erase` of `crates/nd_shape/src/layout.rt`: edit that.
//! In which orders a layout can be iterated over.

mod layoutfmt;

/// In which orders the indices of a layout lie one after another, and which order is better to
/// iterate in: a set of bits. ndarray's `Layout`.
#[derive(Clone, Copy)]
pub struct Layout {
    bits: u32,
}

impl Layout {
    /// The bit of a row-major layout.
    pub const CORDER: u32 = 0b01;

    /// The bit of a column-major layout.
    pub const FORDER: u32 = 0b10;

    /// The bit of a layout for which row-major order is better.
    pub const CPREFER: u32 = 0b0100;

    /// The bit of a layout for which column-major order is better.
    pub const FPREFER: u32 = 0b1000;

    /// Whether some bit of `flag` is set. ndarray's `is`.
    ///
    /// <details><summary>Contract (proved)</summary>
    ///
    /// ```text
    /// ensures IsTrue result ↔ (bit_and self flag ≢ 0)
    /// ```
    /// [How to read it](crate::contracts)
    /// </details>
    #[must_use]
    #[inline(always)]
    pub fn is(self, flag: u32) -> bool {
        self.bits & flag != 0
    }

    /// The bits that are set in both. ndarray's `intersect`.
    ///
    /// <details><summary>Contract (proved)</summary>
    ///
    /// ```text
    /// ensures result ≡ bit_and self other
    /// ```
    /// [How to read it](crate::contracts)
    /// </details>
    #[must_use]
    #[inline(always)]
    pub fn intersect(self, other: Layout) -> Layout {
        Layout { bits: self.bits & other.bits }
    }

    /// The bits that are set in either. ndarray's `also`.
    ///
    /// <details><summary>Contract (proved)</summary>
    ///
    /// ```text
    /// ensures result ≡ bit_or self other
    /// ```
    /// [How to read it](crate::contracts)
    /// </details>
    #[must_use]
    #[inline(always)]
    pub fn also(self, other: Layout) -> Layout {
        Layout { bits: self.bits | other.bits }
    }

    /// The layout with at most one axis of length greater than 1: both orders, all bits. ndarray's
    /// `one_dimensional`.
    ///
    /// <details><summary>Contract (proved)</summary>
    ///
    /// ```text
    /// ensures result ≡ 15
    /// ```
    /// [How to read it](crate::contracts)
    /// </details>
    #[must_use]
    #[inline(always)]
    pub fn one_dimensional() -> Layout {
        Layout::c().also(Layout::f())
    }

    /// The row-major layout. ndarray's `c`.
    ///
    /// <details><summary>Contract (proved)</summary>
    ///
    /// ```text
    /// ensures result ≡ 5
    /// ```
    /// [How to read it](crate::contracts)
    /// </details>
    #[must_use]
    #[inline(always)]
    pub fn c() -> Layout {
        Layout { bits: Layout::CORDER | Layout::CPREFER }
    }

    /// The column-major layout. ndarray's `f`.
    ///
    /// <details><summary>Contract (proved)</summary>
    ///
    /// ```text
    /// ensures result ≡ 10
    /// ```
    /// [How to read it](crate::contracts)
    /// </details>
    #[must_use]
    #[inline(always)]
    pub fn f() -> Layout {
        Layout { bits: Layout::FORDER | Layout::FPREFER }
    }

    /// The layout in neither order for which row-major order is better. ndarray's `cpref`.
    ///
    /// <details><summary>Contract (proved)</summary>
    ///
    /// ```text
    /// ensures result ≡ 4
    /// ```
    /// [How to read it](crate::contracts)
    /// </details>
    #[must_use]
    #[inline(always)]
    pub fn cpref() -> Layout {
        Layout { bits: Layout::CPREFER }
    }

    /// The layout in neither order for which column-major order is better. ndarray's `fpref`.
    ///
    /// <details><summary>Contract (proved)</summary>
    ///
    /// ```text
    /// ensures result ≡ 8
    /// ```
    /// [How to read it](crate::contracts)
    /// </details>
    #[must_use]
    #[inline(always)]
    pub fn fpref() -> Layout {
        Layout { bits: Layout::FPREFER }
    }

    /// The layout in neither order, of which neither is better. ndarray's `none`.
    ///
    /// <details><summary>Contract (proved)</summary>
    ///
    /// ```text
    /// ensures result ≡ 0
    /// ```
    /// [How to read it](crate::contracts)
    /// </details>
    #[must_use]
    #[inline(always)]
    pub fn none() -> Layout {
        Layout { bits: 0 }
    }

    /// From -2 to 2: above 0 where row-major order is better, below 0 where column-major order is.
    /// ndarray's `tendency`.
    ///
    /// <details><summary>Contract (proved)</summary>
    ///
    /// ```text
    /// ensures result ≡ tendency_of_bits self
    /// ```
    /// [How to read it](crate::contracts)
    /// </details>
    #[must_use]
    #[inline]
    pub fn tendency(self) -> i32 {
        (self.flag_at(Layout::CORDER) - self.flag_at(Layout::FORDER))
            + (self.flag_at(Layout::CPREFER) - self.flag_at(Layout::FPREFER))
    }

    /// 1 where some bit of `flag` is set, or else 0.
    ///
    /// <details><summary>Contract (proved)</summary>
    ///
    /// ```text
    /// ensures value: result ≡ flag_at self flag
    /// ensures least: pos 0 ≤ℤ result
    /// ensures greatest: result ≤ℤ pos 1
    /// ```
    /// [How to read it](crate::contracts)
    /// </details>
    #[inline(always)]
    fn flag_at(self, flag: u32) -> i32 {
        if self.is(flag) { 1 } else { 0 }
    }
}
