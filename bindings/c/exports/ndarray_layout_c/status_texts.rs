// Made by `rust/erase` of `crates/ndarray_layout_c/src/status_texts.rt`: edit that.
//! What statuses mean, as text.

use crate::ndarray_layout_c::statuses::{BAD_ARGUMENT, OK};
use crate::unwritten::{MaybeUninit, as_unwritten};

/// How many bytes the longest text has room in, with the 0 that ends it.
const TEXT_SIZE: usize = 80;

/// What a status means: the layer's text for a fault, without the name of the error's type; nothing where a number is no status.
///
/// <details><summary>Contract (proved)</summary>
///
/// ```text
/// ensures text: result.now ≡ status_text status
/// ensures fits: length result.now < 80
/// ```
/// [How to read it](ndarray_layout::contracts)
/// </details>
fn text_of(status: i32) -> &'static [u8] {
    if status == 0 {
        return b"Ok: the call succeeded";
    }
    if status == 1 {
        return b"IncompatibleShape: incompatible shapes";
    }
    if status == 2 {
        return b"IncompatibleLayout: incompatible memory layout";
    }
    if status == 3 {
        return b"RangeLimited: the shape does not fit in type limits";
    }
    if status == 4 {
        return b"OutOfBounds: out of bounds indexing";
    }
    if status == 5 {
        return b"Unsupported: unsupported operation";
    }
    if status == 6 {
        return b"Overflow: arithmetic overflow";
    }
    if status == 7 {
        return b"BadArgument: a number without a meaning, or a list of the wrong length";
    }
    if status == 8 {
        return b"OutOfMemory: memory was refused";
    }
    b""
}

/// Writes a text and a 0 after it over the first bytes of a list that is longer.
///
/// <details><summary>Contract (proved)</summary>
///
/// ```text
/// requires length bytes.now < length text.old
/// ensures text: take (length bytes.now) text.new ≡ bytes.now
/// ensures end: slice_get text.new (length bytes.now) ≡ Some 0
/// ensures rest: drop (length bytes.now + 1) text.new ≡ drop (length bytes.now + 1) text.old
/// ```
/// [How to read it](ndarray_layout::contracts)
/// </details>
fn write_text(bytes: &[u8], text: &mut [MaybeUninit<u8>]) {
    text[bytes.len()].write(0);
    text[..bytes.len()].copy_from_slice(as_unwritten(bytes));
}

/// Writes what a status means, with a 0 after it, and how many bytes that has.
///
/// <details><summary>Contract (proved)</summary>
///
/// ```text
/// ensures status: result ≡ status_where (length (status_text status) == 0 || nat_lt (length text.old) 80) None
/// ensures used: result ≡ ok → used.new ≡ length (status_text status)
/// ensures text: result ≡ ok → take (length (status_text status)) text.new ≡ status_text status
/// ensures end: result ≡ ok → slice_get text.new (length (status_text status)) ≡ Some 0
/// ensures rest: result ≡ ok → drop (length (status_text status) + 1) text.new ≡
///     drop (length (status_text status) + 1) text.old
/// ensures unchanged: result ≢ ok → (text.new ≡ text.old) × (used.new ≡ used.old)
/// ```
/// [How to read it](ndarray_layout::contracts)
/// </details>
pub fn nd_status_text(status: i32, text: &mut [MaybeUninit<u8>], used: &mut MaybeUninit<usize>) -> i32 {
    let bytes = text_of(status);
    if bytes.is_empty() || text.len() < TEXT_SIZE {
        return BAD_ARGUMENT;
    }
    write_text(bytes, text);
    used.write(bytes.len());
    OK
}

pub mod exported {
    use super::*;

    /// # Safety
    ///
    /// Each pointer is aligned and leads to as many items as its count says. That of an empty list isn't looked at.
    #[unsafe(no_mangle)]
    pub unsafe extern "C" fn nd_status_text(
        status: i32,
        text: *mut MaybeUninit<u8>,
        text_count: usize,
        used: *mut MaybeUninit<usize>,
    ) -> i32 {
        unsafe {
            super::nd_status_text(
                status,
                if text_count == 0 { &mut [] } else { ::core::slice::from_raw_parts_mut(text, text_count) },
                &mut *used,
            )
        }
    }
}
