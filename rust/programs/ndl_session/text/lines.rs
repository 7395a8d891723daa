// Made by `rust/erase` of `crates/ndl_session/src/text/lines.rt`: edit that.
//! The lines of a script.

use crate::ndl_session::text::words::{split_once, words};
use ::ndarray_layout::memory::AllocError;
use ::ndarray_layout::memory::prelude::Vec;

/// A line that has a word.
pub(crate) struct Line<'a> {
    /// Its number: each line counts, blank ones too.
    pub(crate) number: usize,
    /// Its words, at least one.
    pub(crate) words: Vec<&'a [u8]>,
    /// The text after its end.
    pub(crate) rest: &'a [u8],
}

/// The first line of a text, and the text after it; `None` where nothing is left.
///
/// <details><summary>Contract (proved)</summary>
///
/// ```text
/// ensures lines: MatchOption result (lines_of text.now ≡ [])
///     (λ found. lines_of text.now ≡ found.0.now ∷ lines_of found.1.now)
/// ensures rest: IfSome result (λ found. found.1.now ≡ after_line text.now)
/// ensures shorter: IfSome result (λ found. length found.1.now < length text.now)
/// ```
/// [How to read it](ndarray_layout::contracts)
/// </details>
fn first_line(text: &[u8]) -> Option<(&[u8], &[u8])> {
    match split_once(text, b'\n') {
        Some((line, rest)) => Some((line.strip_suffix(b"\r").unwrap_or(line), rest)),
        None if text.is_empty() => None,
        None => Some((text, &[])),
    }
}

/// The first line of a text that has a word; `None` where there is none. The number given is that of
/// the first line of the text.
///
/// Errors: out of memory.
///
/// # Conditions
///
/// The caller ensures that this number and the text's length in bytes are together below 2^64. Otherwise this call or a
/// later one panics or returns unspecified values.
///
/// <details><summary>Contract (proved)</summary>
///
/// ```text
/// requires number + length text.now < 2 ^ 64
/// ensures lines: IfOk result (λ found. MatchOption found (lines_from number text.now ≡ [])
///     (λ line. lines_from number text.now
///     ≡ (line.number, map (λ word. word.now) line.words.items)
///     ∷ lines_from (line.number + 1) line.rest.now))
/// ensures rest: IfOk result (λ found. IfSome found
///     (λ line. line.rest.now ≡ after_lines (line.number + 1 - number) text.now))
/// ensures shorter: IfOk result (λ found. IfSome found (λ line. length line.rest.now < length text.now))
/// ensures counted: IfOk result (λ found. IfSome found
///     (λ line. line.number + length line.rest.now < number + length text.now))
/// ```
/// [How to read it](ndarray_layout::contracts)
/// </details>
pub(crate) fn next_line(text: &[u8], number: usize) -> Result<Option<Line<'_>>, AllocError> {
    let mut rest = text;
    let mut number = number;
    while let Some((line, after)) = first_line(rest) {
        let words = words(line)?;
        if !words.is_empty() {
            return Ok(Some(Line { number, words, rest: after }));
        }
        rest = after;
        number += 1;
    }
    Ok(None)
}
