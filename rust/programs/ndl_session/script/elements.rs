// Made by `rust/erase` of `crates/ndl_session/src/script/elements.rt`: edit that.
//! Elements of a slice argument as words spell them.

use crate::ndl_session::script::lists::Item;
use crate::ndl_session::text::numbers::signed_number;
use crate::ndl_session::text::words::split_once;
use ::ndarray_layout::SliceInfoElem;

/// The start of a range: the first coordinate where it is missing; `None` where it is no number.
///
/// <details><summary>Contract (proved)</summary>
///
/// ```text
/// ensures result ≡ start_of text.now
/// ```
/// [How to read it](ndarray_layout::contracts)
/// </details>
fn start(text: &[u8]) -> Option<isize> {
    if text.is_empty() {
        return Some(0);
    }
    signed_number(text)
}

/// The end of a range: no end where it is missing; `None` where it is no number.
///
/// <details><summary>Contract (proved)</summary>
///
/// ```text
/// ensures result ≡ end_of text.now
/// ```
/// [How to read it](ndarray_layout::contracts)
/// </details>
fn end(text: &[u8]) -> Option<Option<isize>> {
    if text.is_empty() {
        return Some(None);
    }
    signed_number(text).map(Some)
}

/// The slice by a range and a step; `None` where the text is no range.
///
/// <details><summary>Contract (proved)</summary>
///
/// ```text
/// ensures result ≡ slice_of_bounds step (cut_at dot range.now)
/// ```
/// [How to read it](ndarray_layout::contracts)
/// </details>
fn slice(range: &[u8], step: isize) -> Option<SliceInfoElem> {
    let (start_text, rest) = split_once(range, b'.')?;
    let end_text = rest.strip_prefix(b".")?;
    Some(SliceInfoElem::Slice { start: start(start_text)?, end: end(end_text)?, step })
}

/// The slice by a range, with an optional step after a semicolon; `None` where the text is neither.
///
/// <details><summary>Contract (proved)</summary>
///
/// ```text
/// ensures result ≡ range_of text.now
/// ```
/// [How to read it](ndarray_layout::contracts)
/// </details>
fn range(text: &[u8]) -> Option<SliceInfoElem> {
    match split_once(text, b';') {
        Some((bounds, step)) => slice(bounds, signed_number(step)?),
        None => slice(text, 1),
    }
}

impl Item for SliceInfoElem {
    type Kept = SliceInfoElem;

    /// A new axis by its name, an index by its number, or a range.
    fn read(text: &[u8]) -> Option<SliceInfoElem> {
        if text == b"NewAxis".as_slice() {
            return Some(SliceInfoElem::NewAxis);
        }
        match signed_number(text) {
            Some(index) => Some(SliceInfoElem::Index(index)),
            None => range(text),
        }
    }
}
