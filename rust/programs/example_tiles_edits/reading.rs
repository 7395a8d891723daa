// Made by `rust/erase` of `crates/example_tiles_edits/src/reading.rt`: edit that.
//! Reads a picture.

use crate::example_tiles_edits::picture::{Extent, Picture};
use ::ndarray_layout::memory::AllocError;
use ::ndarray_layout::memory::prelude::{FallibleVec, Vec};

/// Why a picture was not read.
#[derive(Clone, Copy, Debug, PartialEq, Eq)]
pub enum ReadError {
    /// The text begins otherwise than a picture does.
    Header,
    /// There are fewer bytes than pixels.
    Ended,
    /// A pixel is above the value of white.
    TooWhite(usize),
    /// An allocation failed.
    Memory,
}

impl ::core::fmt::Display for ReadError {
    fn fmt(&self, f: &mut ::core::fmt::Formatter<'_>) -> ::core::fmt::Result {
        match self {
            Self::Header => ::core::write!(
                f,
                "expected `P5`, the numbers of columns and of rows, and the value of white, from 1 to 255"
            ),
            Self::Ended => ::core::write!(f, "the text ends before the last pixel"),
            Self::TooWhite(value) => ::core::write!(f, "pixel {0} is above the value of white", value),
            Self::Memory => ::core::write!(f, "out of memory"),
        }
    }
}

impl ::core::error::Error for ReadError {}

impl From<AllocError> for ReadError {
    fn from(_error: AllocError) -> Self {
        ReadError::Memory
    }
}

/// What stands before the pixels of a picture.
#[derive(Clone, Copy)]
struct Header {
    extent: Extent,
    white: u8,
}

/// A text from the end of its first line on; nothing where it is one line.
///
/// <details><summary>Contract (proved)</summary>
///
/// ```text
/// ensures length result.now ≤ length text.now
/// ```
/// [How to read it](ndarray_layout::contracts)
/// </details>
fn after_line(text: &[u8]) -> &[u8] {
    match text.iter().position(|byte| *byte == b'\n') {
        Some(at) => &text[at..],
        None => &[],
    }
}

/// A text from its first word on. A comment, from a `#` to the end of its line, counts as white space.
fn after_space(text: &[u8]) -> &[u8] {
    let mut rest = text.trim_ascii_start();
    while let [b'#', comment @ ..] = rest {
        rest = after_line(comment).trim_ascii_start();
    }
    rest
}

/// The first word of a text, up to white space, and what follows it.
fn split_word(text: &[u8]) -> (&[u8], &[u8]) {
    let text = after_space(text);
    match text.iter().position(|byte| byte.is_ascii_whitespace()) {
        Some(at) => text.split_at(at),
        None => (text, &[]),
    }
}

/// The number that the first word of a text spells, and what follows it.
fn split_number(text: &[u8]) -> Option<(u32, &[u8])> {
    let (word, rest) = split_word(text);
    let number = str::from_utf8(word).ok()?.parse().ok()?;
    Some((number, rest))
}

/// The header that a text begins with, and the bytes after it and one byte of white space.
fn split_header(text: &[u8]) -> Option<(Header, &[u8])> {
    let (columns, rest) = split_number(text.strip_prefix(b"P5")?)?;
    let (rows, rest) = split_number(rest)?;
    let (white, rest) = split_number(rest)?;
    let [_, bytes @ ..] = rest else {
        return None;
    };
    if white == 0 || white > 255 {
        return None;
    }
    let header = Header { extent: Extent { rows, columns }, white: white as u8 };
    Some((header, bytes))
}

/// The picture that a text spells: `P5`, the number of columns, that of rows and the value of white, separated by white space,
/// one byte of white space, and a byte for each pixel, row by row. What follows the last one isn't looked at.
///
/// Errors: the text has no such header, then too few bytes, then a pixel above white, by its number from 1 on; out of memory.
pub fn read_picture(text: &[u8]) -> Result<Picture, ReadError> {
    let Some((header, bytes)) = split_header(text) else {
        return Err(ReadError::Header);
    };
    let count = header.extent.pixel_count();
    if bytes.len() < count {
        return Err(ReadError::Ended);
    }
    let bytes = &bytes[..count];
    if let Some(at) = bytes.iter().position(|byte| *byte > header.white) {
        return Err(ReadError::TooWhite(at + 1));
    }
    Ok(Picture { extent: header.extent, white: header.white, pixels: Vec::fallible_from_slice(bytes)? })
}
