// Made by `rust/erase` of `crates/nd_slice/src/elem/elem_text.rt`: edit that.
//! How the elements of a slice argument print.

use super::SliceInfoElem;
use crate::nd_slice::slice::Slice;
use core::fmt;

/// Prints a range as its `Slice`, an index as its number, and a new axis as `NewAxis`.
impl fmt::Display for SliceInfoElem {
    #[inline]
    fn fmt(&self, f: &mut fmt::Formatter<'_>) -> fmt::Result {
        match *self {
            SliceInfoElem::Slice { start, end, step } => fmt::Display::fmt(&Slice { start, end, step }, f),
            SliceInfoElem::Index(index) => crate::fallible_write!(f, "{index}"),
            SliceInfoElem::NewAxis => f.write_str("NewAxis"),
        }
    }
}
