// Made by `rust/erase` of `crates/nd_shape/src/layout/layoutfmt.rt`: edit that.
//! What a `Layout` prints.

use crate::nd_shape::layout::Layout;
use core::fmt;

/// The letters of the bits that are set, or a word where none is, and the bits as a number.
///
/// <details><summary>Contract (proved)</summary>
///
/// ```text
/// requires bits < 16
/// ensures result.now ≡ layout_text bits
/// ```
/// [How to read it](crate::contracts)
/// </details>
#[inline]
fn text_of(bits: u32) -> &'static str {
    match bits {
        0 => "Custom (0x0)",
        1 => "C (0x1)",
        2 => "F (0x2)",
        3 => "CF (0x3)",
        4 => "c (0x4)",
        5 => "Cc (0x5)",
        6 => "Fc (0x6)",
        7 => "CFc (0x7)",
        8 => "f (0x8)",
        9 => "Cf (0x9)",
        10 => "Ff (0xa)",
        11 => "CFf (0xb)",
        12 => "cf (0xc)",
        13 => "Ccf (0xd)",
        14 => "Fcf (0xe)",
        _ => "CFcf (0xf)",
    }
}

impl fmt::Debug for Layout {
    #[inline]
    fn fmt(&self, f: &mut fmt::Formatter<'_>) -> fmt::Result {
        f.write_str(text_of(self.bits))
    }
}
