// Made by `rust/erase` of `crates/ndl_session/src/text/numbers.rt`: edit that.
//! Numbers as words spell them.

/// The number of one digit or more, without a sign; `None` where the text spells no such number, or one that no `usize`
/// is.
pub(crate) fn number(text: &[u8]) -> Option<usize> {
    if text.starts_with(b"+") {
        return None;
    }
    str::from_utf8(text).ok()?.parse().ok()
}

/// The number of one digit or more, with an optional `-` in front; `None` where the text spells no such number, or one
/// that no `isize` is.
///
/// <details><summary>Contract (proved)</summary>
///
/// ```text
/// ensures result ≡ signed_number_of text.now
/// ```
/// [How to read it](ndarray_layout::contracts)
/// </details>
pub(crate) fn signed_number(text: &[u8]) -> Option<isize> {
    match text.strip_prefix(b"-") {
        Some(digits) => 0isize.checked_sub_unsigned(number(digits)?),
        None => 0isize.checked_add_unsigned(number(text)?),
    }
}
