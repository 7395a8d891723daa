// Made by `rust/erase` of `crates/nd_base/src/arithmetic.rt`: edit that.
//! What the operators of every dimension type do: arithmetic of lists, number by number.

use crate::nd_base::dim::Dim;
use crate::nd_base::lengths::Lengths;
use crate::nd_base::numbers::AreLengths;
use core::ops::Add;
use core::ops::AddAssign;
use core::ops::Mul;
use core::ops::MulAssign;
use core::ops::Sub;
use core::ops::SubAssign;

/// Lists of lengths that are added, subtracted and multiplied coordinate by coordinate. The
/// operators that ndarray's `Dimension` asks for.
///
/// Sealed: no type outside this package implements it.
pub trait Arithmetic:
    Lengths
    + Add<Output = Self>
    + Sub<Output = Self>
    + Mul<Output = Self>
    + AddAssign
    + SubAssign
    + MulAssign
    + crate::sealed::Sealed
    + for<'x> AddAssign<&'x Self>
    + for<'x> SubAssign<&'x Self>
    + for<'x> MulAssign<&'x Self>
{
}

/// Lists of lengths that one factor scales. The operators with a number that ndarray's
/// `Dimension` asks for.
///
/// Sealed: no type outside this package implements it.
pub trait Scale: Lengths + Mul<usize, Output = Self> + MulAssign<usize> + crate::sealed::Sealed {}

impl<I: AreLengths> Arithmetic for Dim<I> where Dim<I>: Lengths {}

impl<I: AreLengths> Scale for Dim<I> where Dim<I>: Lengths {}
