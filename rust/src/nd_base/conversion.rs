// Made by `rust/erase` of `crates/nd_base/src/conversion.rt`: edit that.
//! From the coordinates of an index to a tuple.

/// The coordinates of an index as a tuple of as many parts. ndarray's `Convert`.
pub trait Convert {
    /// The type of the parts.
    type To;

    /// The coordinates as a tuple. `[4,5]`: (4, 5). ndarray's `convert`.
    ///
    /// <details><summary>Contract (proved)</summary>
    ///
    /// ```text
    /// ensures convert_gives self result
    /// ```
    /// [How to read it](crate::contracts)
    /// </details>
    fn convert(self) -> Self::To;
}

impl Convert for [usize; 0] {
    type To = ();

    #[inline]
    fn convert(self) -> () {}
}

impl Convert for [usize; 1] {
    type To = (usize,);

    #[inline]
    fn convert(self) -> (usize,) {
        let [i0] = self;
        (i0,)
    }
}

impl Convert for [usize; 2] {
    type To = (usize, usize);

    #[inline]
    fn convert(self) -> (usize, usize) {
        let [i0, i1] = self;
        (i0, i1)
    }
}

impl Convert for [usize; 3] {
    type To = (usize, usize, usize);

    #[inline]
    fn convert(self) -> (usize, usize, usize) {
        let [i0, i1, i2] = self;
        (i0, i1, i2)
    }
}

impl Convert for [usize; 4] {
    type To = (usize, usize, usize, usize);

    #[inline]
    fn convert(self) -> (usize, usize, usize, usize) {
        let [i0, i1, i2, i3] = self;
        (i0, i1, i2, i3)
    }
}

impl Convert for [usize; 5] {
    type To = (usize, usize, usize, usize, usize);

    #[inline]
    fn convert(self) -> (usize, usize, usize, usize, usize) {
        let [i0, i1, i2, i3, i4] = self;
        (i0, i1, i2, i3, i4)
    }
}

impl Convert for [usize; 6] {
    type To = (usize, usize, usize, usize, usize, usize);

    #[inline]
    fn convert(self) -> (usize, usize, usize, usize, usize, usize) {
        let [i0, i1, i2, i3, i4, i5] = self;
        (i0, i1, i2, i3, i4, i5)
    }
}
