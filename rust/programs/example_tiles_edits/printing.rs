// Made by `rust/erase` of `crates/example_tiles_edits/src/printing.rt`: edit that.
//! Prints a picture.

use crate::example_tiles_edits::picture::{Extent, Picture};
use ::ndarray_layout::memory::AllocError;
use ::ndarray_layout::memory::prelude::{FallibleVec, Vec};

/// The text of a picture, which is read as the same picture.
///
/// Errors: out of memory.
pub fn print_picture(picture: &Picture) -> Result<Vec<u8>, AllocError> {
    let Extent { rows, columns } = picture.extent;
    let white = picture.white;
    let mut text = ::ndarray_layout::fallible_format!("P5\n{columns} {rows}\n{white}\n")?.into_bytes();
    text.fallible_extend_from_slice(picture.pixels.as_slice())?;
    Ok(text)
}
