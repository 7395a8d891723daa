// Made by `rust/erase` of `crates/nd_base/src/numbers.rt`: edit that.
//! What dimensions keep: one number for each axis.

use crate::nd_base::dim::Dim;
use crate::nd_base::dynindeximpl::IxDynImpl;
use crate::nd_base::lengths::Lengths;

/// One number for each axis, in order, however they are kept. The operators ask for no more than
/// this, so that they stand once for arrays and for `IxDynImpl`.
pub trait Numbers: Sized {
    /// The numbers, in order.
    ///
    /// <details><summary>Contract (proved)</summary>
    ///
    /// ```text
    /// ensures result.now ≡ list self.now
    /// ```
    /// [How to read it](crate::contracts)
    /// </details>
    fn slice(&self) -> &[usize];

    /// The numbers, to be written; their count is fixed.
    ///
    /// <details><summary>Contract (proved)</summary>
    ///
    /// ```text
    /// ensures list: result.now ≡ list self.old
    /// ```
    /// [How to read it](crate::contracts)
    /// </details>
    fn slice_mut(&mut self) -> &mut [usize];
}

/// Numbers that are the lengths of the dimension that keeps them. The operators' laws ask for this.
pub trait AreLengths: Numbers
where
    Dim<Self>: Lengths,
{
}

impl<const N: usize> Numbers for [usize; N] {
    #[inline]
    fn slice(&self) -> &[usize] {
        &self[..]
    }

    #[inline]
    fn slice_mut(&mut self) -> &mut [usize] {
        self
    }
}

impl Numbers for IxDynImpl {
    #[inline]
    fn slice(&self) -> &[usize] {
        self.as_slice()
    }

    #[inline]
    fn slice_mut(&mut self) -> &mut [usize] {
        self.as_mut_slice()
    }
}

impl<const N: usize> AreLengths for [usize; N] {}

// The clause on `[usize; 4]` always holds. Without it this kit stops at `impl Dimension for IxDyn`, and
// wherever a trait above is given to `IxDyn`, by a fault of its own.
impl AreLengths for IxDynImpl where [usize; 4]: Eq {}
