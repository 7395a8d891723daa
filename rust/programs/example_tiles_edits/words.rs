// Made by `rust/erase` of `crates/example_tiles_edits/src/words.rt`: edit that.
//! Edits as words spell them.

use crate::example_tiles_edits::edit::{Edit, Span};
use ::ndarray_layout::memory::AllocFailed;
use ::ndarray_layout::memory::prelude::{FallibleVec, Vec};

/// Why words were not read as edits.
#[derive(Clone, Copy, Debug, PartialEq, Eq)]
pub enum WordsError {
    /// No edit begins with the word of this number, counted from 1.
    Unreadable(usize),
    /// An allocation failed.
    Memory,
}

impl ::core::fmt::Display for WordsError {
    fn fmt(&self, f: &mut ::core::fmt::Formatter<'_>) -> ::core::fmt::Result {
        match self {
            Self::Unreadable(value) => ::core::write!(
                f,
                "argument {0}: expected `crop A..B C..D`, `flip rows`, `flip columns` or `every N`",
                value
            ),
            Self::Memory => ::core::write!(f, "out of memory"),
        }
    }
}

impl ::core::error::Error for WordsError {}

impl<T: Sized> From<AllocFailed<T>> for WordsError {
    fn from(_error: AllocFailed<T>) -> Self {
        WordsError::Memory
    }
}

/// The span of a word as `2..6`; `None` where it is no such word.
fn span(word: &str) -> Option<Span> {
    let (start, end) = word.split_once("..")?;
    Some(Span { start: start.parse().ok()?, end: end.parse().ok()? })
}

/// The edit that some words begin with, and how many of them spell it; `None` where they begin with none.
///
/// <details><summary>Contract (proved)</summary>
///
/// ```text
/// ensures IfSome result (λ found. (0 < found.1) × (found.1 ≤ length words.now))
/// ```
/// [How to read it](ndarray_layout::contracts)
/// </details>
fn first_edit(words: &[&str]) -> Option<(Edit, usize)> {
    match words {
        ["crop", rows, columns, ..] => Some((Edit::Crop(span(rows)?, span(columns)?), 3)),
        ["flip", "rows", ..] => Some((Edit::FlipRows, 2)),
        ["flip", "columns", ..] => Some((Edit::FlipColumns, 2)),
        ["every", count, ..] => Some((Edit::Every(count.parse().ok()?), 2)),
        _ => None,
    }
}

/// The edits that words spell, one after another, each in two words or three.
///
/// Errors: the number of the first word that no edit begins with; out of memory.
pub fn read_edits(words: &[&str]) -> Result<Vec<Edit>, WordsError> {
    let mut edits = Vec::new();
    let mut at = 0;
    while at < words.len() {
        let Some((edit, taken)) = first_edit(&words[at..]) else {
            return Err(WordsError::Unreadable(at + 1));
        };
        edits.fallible_push(edit)?;
        at += taken;
    }
    Ok(edits)
}
