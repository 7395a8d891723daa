// Made by `rust/erase` of `crates/nd_loops/src/unsigned.rt`: edit that.
//! Numbers without a sign, which are summed.

/// An unsigned number of any of the widths. num_traits' `Unsigned`.
pub trait Unsigned: Copy + crate::sealed::Sealed {
    /// The number, by the greatest width. `3_u8` as a `u64`: 3. num_traits' `to_u64`.
    ///
    /// <details><summary>Contract (proved)</summary>
    ///
    /// ```text
    /// ensures result ≡ number self
    /// ```
    /// [How to read it](crate::contracts)
    /// </details>
    #[must_use]
    fn to_u64(self) -> u64;
}

impl Unsigned for u8 {
    #[inline(always)]
    fn to_u64(self) -> u64 {
        u64::from(self)
    }
}

impl Unsigned for u16 {
    #[inline(always)]
    fn to_u64(self) -> u64 {
        u64::from(self)
    }
}

impl Unsigned for u32 {
    #[inline(always)]
    fn to_u64(self) -> u64 {
        u64::from(self)
    }
}

impl Unsigned for u64 {
    #[inline(always)]
    fn to_u64(self) -> u64 {
        self
    }
}

impl Unsigned for usize {
    #[inline(always)]
    fn to_u64(self) -> u64 {
        self as u64
    }
}
