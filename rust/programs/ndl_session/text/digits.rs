// Made by `rust/erase` of `crates/ndl_session/src/text/digits.rt`: edit that.
//! The digits of a number, written from the last to the first.

/// The most digits that a number has.
pub(super) const MOST_DIGITS: usize = 20;

/// Writes the two digits of a number below 100.
///
/// <details><summary>Contract (proved)</summary>
///
/// ```text
/// requires (pair < 100) × (at + 2 ≤ length bytes.old)
/// ensures drop at bytes.new ≡ (48 + pair / 10) ∷ (48 + pair % 10) ∷ drop (at + 2) bytes.old
/// ```
/// [How to read it](ndarray_layout::contracts)
/// </details>
#[inline(always)]
fn write_pair(pair: usize, bytes: &mut [u8], at: usize) {
    bytes[at] = b'0' + (pair / 10) as u8;
    bytes[at + 1] = b'0' + (pair % 10) as u8;
}

/// Writes the digits of a number below 100, one or two, so that they end at `end`, and returns where they start.
///
/// <details><summary>Contract (proved)</summary>
///
/// ```text
/// requires (number < 100) × (length (decimal number) ≤ end) × (end ≤ length bytes.old)
/// ensures start: result + length (decimal number) ≡ end
/// ensures written: drop result bytes.new ≡ decimal number ++ drop end bytes.old
/// ```
/// [How to read it](ndarray_layout::contracts)
/// </details>
#[inline(always)]
fn write_first(number: usize, bytes: &mut [u8], end: usize) -> usize {
    if number < 10 {
        bytes[end - 1] = b'0' + number as u8;
        return end - 1;
    }
    write_pair(number, bytes, end - 2);
    end - 2
}

/// Writes the digits of a number so that they end at `end`, and returns where they start. Two digits a step.
///
/// <details><summary>Contract (proved)</summary>
///
/// ```text
/// requires (length (decimal number) ≤ end) × (end ≤ length bytes.old)
/// ensures start: result + length (decimal number) ≡ end
/// ensures written: drop result bytes.new ≡ decimal number ++ drop end bytes.old
/// ```
/// [How to read it](ndarray_layout::contracts)
/// </details>
#[inline]
pub(super) fn write_digits(number: usize, bytes: &mut [u8], end: usize) -> usize {
    let mut left = number;
    let mut at = end;
    while left >= 100 {
        write_pair(left % 100, bytes, at - 2);
        left /= 100;
        at -= 2;
    }
    write_first(left, bytes, at)
}
