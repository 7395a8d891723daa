// Made by `rust/erase` of `crates/nd_base/src/ops.rt`: edit that.
//! The operators of dimensions. Their conditions rule out other counts and results that do not fit.

use crate::nd_base::dim::{Dim, Ix1};
use crate::nd_base::elementwise::{add_to, multiply_by, scale, subtract_from};
use crate::nd_base::numbers::Numbers;
use core::ops::Add;
use core::ops::AddAssign;
use core::ops::Mul;
use core::ops::MulAssign;
use core::ops::Sub;
use core::ops::SubAssign;

impl<const N: usize> Dim<[usize; N]> {
    /// All lengths 0. ndarray's `zero`.
    ///
    /// <details><summary>Contract (proved)</summary>
    ///
    /// ```text
    /// ensures lengths result ≡ replicate N 0
    /// ```
    /// [How to read it](crate::contracts)
    /// </details>
    #[inline]
    #[must_use]
    pub fn zero() -> Self {
        Dim { index: [0; N] }
    }

    /// Whether all lengths are 0. ndarray's `is_zero`.
    ///
    /// <details><summary>Contract (proved)</summary>
    ///
    /// ```text
    /// ensures IsTrue result ↔ (lengths self.now ≡ replicate N 0)
    /// ```
    /// [How to read it](crate::contracts)
    /// </details>
    #[inline]
    #[must_use]
    pub fn is_zero(&self) -> bool {
        self.index == [0; N]
    }
}

impl<I: Numbers> AddAssign<&Dim<I>> for Dim<I> {
    #[inline]
    fn add_assign(&mut self, others: &Self) {
        add_to(self.index.slice_mut(), others.index.slice());
    }
}

impl<I: Numbers> AddAssign for Dim<I> {
    #[inline]
    fn add_assign(&mut self, others: Self) {
        *self += &others;
    }
}

impl<I: Numbers> Add for Dim<I> {
    type Output = Self;

    #[inline]
    fn add(mut self, others: Self) -> Self {
        self += &others;
        self
    }
}

impl<I: Numbers> SubAssign<&Dim<I>> for Dim<I> {
    #[inline]
    fn sub_assign(&mut self, others: &Self) {
        subtract_from(self.index.slice_mut(), others.index.slice());
    }
}

impl<I: Numbers> SubAssign for Dim<I> {
    #[inline]
    fn sub_assign(&mut self, others: Self) {
        *self -= &others;
    }
}

impl<I: Numbers> Sub for Dim<I> {
    type Output = Self;

    #[inline]
    fn sub(mut self, others: Self) -> Self {
        self -= &others;
        self
    }
}

impl<I: Numbers> MulAssign<&Dim<I>> for Dim<I> {
    #[inline]
    fn mul_assign(&mut self, others: &Self) {
        multiply_by(self.index.slice_mut(), others.index.slice());
    }
}

impl<I: Numbers> MulAssign for Dim<I> {
    #[inline]
    fn mul_assign(&mut self, others: Self) {
        *self *= &others;
    }
}

impl<I: Numbers> Mul for Dim<I> {
    type Output = Self;

    #[inline]
    fn mul(mut self, others: Self) -> Self {
        self *= &others;
        self
    }
}

impl<I: Numbers> MulAssign<usize> for Dim<I> {
    #[inline]
    fn mul_assign(&mut self, factor: usize) {
        scale(self.index.slice_mut(), factor);
    }
}

impl<I: Numbers> Mul<usize> for Dim<I> {
    type Output = Self;

    #[inline]
    fn mul(mut self, factor: usize) -> Self {
        self *= factor;
        self
    }
}

impl AddAssign<usize> for Ix1 {
    #[inline]
    fn add_assign(&mut self, len: usize) {
        add_to(&mut self.index, &[len]);
    }
}

impl Add<usize> for Ix1 {
    type Output = Self;

    #[inline]
    fn add(mut self, len: usize) -> Self {
        self += len;
        self
    }
}

impl SubAssign<usize> for Ix1 {
    #[inline]
    fn sub_assign(&mut self, len: usize) {
        subtract_from(&mut self.index, &[len]);
    }
}

impl Sub<usize> for Ix1 {
    type Output = Self;

    #[inline]
    fn sub(mut self, len: usize) -> Self {
        self -= len;
        self
    }
}
