// Made by `rust/erase` of `crates/ndl_session/src/text/words.rt`: edit that.
//! The words of a line, and the pieces of a text.

use ::ndarray_layout::memory::AllocError;
use ::ndarray_layout::memory::prelude::{FallibleIterator, Vec};

/// The words of a line: what stands between its spaces.
///
/// Errors: out of memory.
///
/// <details><summary>Contract (proved)</summary>
///
/// ```text
/// ensures IfOk result (λ v. map (λ word. word.now) v.items ≡ words_of line.now)
/// ```
/// [How to read it](ndarray_layout::contracts)
/// </details>
pub(super) fn words(line: &[u8]) -> Result<Vec<&[u8]>, AllocError> {
    line.split(|b| *b == b' ').filter(|word| !word.is_empty()).fallible_collect()
}

/// The index of the first byte that is this one; `None` where none is.
///
/// <details><summary>Contract (proved)</summary>
///
/// ```text
/// ensures result ≡ position (λ b. b == byte) text.now
/// ```
/// [How to read it](ndarray_layout::contracts)
/// </details>
fn position_of(text: &[u8], byte: u8) -> Option<usize> {
    text.iter().position(|b| *b == byte)
}

/// The pieces of a text before and after the first separator; `None` without one.
///
/// <details><summary>Contract (proved)</summary>
///
/// ```text
/// ensures split: MatchOption result (cut_at separator text.now ≡ text.now ∷ [])
///     (λ found. cut_at separator text.now ≡ found.0.now ∷ cut_at separator found.1.now)
/// ensures rest: MatchOption result (after_first (λ b. b == separator) text.now ≡ [])
///     (λ found. found.1.now ≡ after_first (λ b. b == separator) text.now)
/// ensures shorter: IfSome result (λ found. length found.1.now < length text.now)
/// ```
/// [How to read it](ndarray_layout::contracts)
/// </details>
pub(crate) fn split_once(text: &[u8], separator: u8) -> Option<(&[u8], &[u8])> {
    let at = position_of(text, separator)?;
    Some((&text[..at], &text[at + 1..]))
}
