// Made by `rust/erase` of `crates/nd_dim/src/dimensions.rt`: edit that.
//! The dimension types one by one: their patterns, and the types of one axis less and more.

use crate::memory::AllocError;
use crate::nd_base::{Dim, Ix0, Ix1, Ix2, Ix3, Ix4, Ix5, Ix6, IxDyn, IxDynImpl};
use crate::nd_dim::dimension::Dimension;

impl Dimension for Dim<[usize; 0]> {
    type Pattern = ();

    type Smaller = Ix0;

    type Larger = Ix1;

    #[inline]
    fn into_pattern(self) -> () {}
}

impl Dimension for Dim<[usize; 1]> {
    type Pattern = usize;

    type Smaller = Ix0;

    type Larger = Ix2;

    #[inline]
    fn into_pattern(self) -> usize {
        self[0]
    }
}

impl Dimension for Dim<[usize; 2]> {
    type Pattern = (usize, usize);

    type Smaller = Ix1;

    type Larger = Ix3;

    #[inline]
    fn into_pattern(self) -> (usize, usize) {
        (self[0], self[1])
    }
}

impl Dimension for Dim<[usize; 3]> {
    type Pattern = (usize, usize, usize);

    type Smaller = Ix2;

    type Larger = Ix4;

    #[inline]
    fn into_pattern(self) -> (usize, usize, usize) {
        (self[0], self[1], self[2])
    }
}

impl Dimension for Dim<[usize; 4]> {
    type Pattern = (usize, usize, usize, usize);

    type Smaller = Ix3;

    type Larger = Ix5;

    #[inline]
    fn into_pattern(self) -> (usize, usize, usize, usize) {
        (self[0], self[1], self[2], self[3])
    }
}

impl Dimension for Dim<[usize; 5]> {
    type Pattern = (usize, usize, usize, usize, usize);

    type Smaller = Ix4;

    type Larger = Ix6;

    #[inline]
    fn into_pattern(self) -> (usize, usize, usize, usize, usize) {
        (self[0], self[1], self[2], self[3], self[4])
    }
}

impl Dimension for Dim<[usize; 6]> {
    type Pattern = (usize, usize, usize, usize, usize, usize);

    type Smaller = Ix5;

    type Larger = IxDyn;

    #[inline]
    fn into_pattern(self) -> (usize, usize, usize, usize, usize, usize) {
        (self[0], self[1], self[2], self[3], self[4], self[5])
    }
}

impl Dimension for Dim<IxDynImpl> {
    type Pattern = IxDyn;

    type Smaller = IxDyn;

    type Larger = IxDyn;

    #[inline]
    fn into_pattern(self) -> IxDyn {
        self
    }

    /// This value itself.
    ///
    /// # Errors
    ///
    /// None, whatever the count of axes.
    ///
    /// <details><summary>Contract (proved)</summary>
    ///
    /// ```text
    /// ensures list: IfOk result (λ dim. lengths dim ≡ lengths self)
    /// ensures memory: IsOk result
    /// ```
    /// [How to read it](crate::contracts)
    /// </details>
    #[inline]
    fn into_dyn(self) -> Result<IxDyn, AllocError> {
        Ok(self)
    }
}
