// Made by `rust/erase` of `crates/example_tiles_edits/src/picture.rt`: edit that.
//! Pictures in grey.

use ::ndarray_layout::memory::prelude::Vec;

/// How many rows and columns a picture has.
#[derive(Clone, Copy, Debug, PartialEq, Eq)]
pub struct Extent {
    /// How many rows.
    pub rows: u32,
    /// How many columns.
    pub columns: u32,
}

impl Extent {
    /// How many pixels a picture of this extent has.
    ///
    /// <details><summary>Contract (proved)</summary>
    ///
    /// ```text
    /// ensures result ≡ pixel_count self
    /// ```
    /// [How to read it](ndarray_layout::contracts)
    /// </details>
    pub(crate) fn pixel_count(self) -> usize {
        self.rows as usize * self.columns as usize
    }
}

/// A picture: its pixels row by row, from 0 for black up to a value for white.
#[derive(Debug)]
pub struct Picture {
    pub(crate) extent: Extent,
    pub(crate) white: u8,
    pub(crate) pixels: Vec<u8>,
}
