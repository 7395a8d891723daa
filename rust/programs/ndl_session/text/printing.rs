// Made by `rust/erase` of `crates/ndl_session/src/text/printing.rt`: edit that.
//! The lines of an answer.

use crate::ndl_session::text::digits::{MOST_DIGITS, write_digits};
use ::ndarray_layout::memory::AllocError;
use ::ndarray_layout::memory::prelude::{FallibleVec, String, Vec};
use core::fmt::Display;
use core::fmt::Write;

/// Appends a number, printed into `digits` first.
///
/// Errors: out of memory; the text is unchanged then.
///
/// <details><summary>Contract (proved)</summary>
///
/// ```text
/// requires IsSome (T.output number)
/// ensures bytes: text.new.items ≡ (if is_ok result then text.old.items ++ printed T.output number else text.old.items)
/// ```
/// [How to read it](ndarray_layout::contracts)
/// </details>
fn push_number<T: Display + Copy>(text: &mut Vec<u8>, digits: &mut String, number: T) -> Result<(), AllocError> {
    digits.clear();
    ::ndarray_layout::fallible_write!(digits, "{number}")?;
    text.fallible_extend_from_slice(digits.as_bytes())
}

/// Appends the numbers with the separator between each two, or `-` where there are none.
///
/// Errors: out of memory; what stood in the text before is still its beginning then.
///
/// <details><summary>Contract (proved)</summary>
///
/// ```text
/// requires can: I.can_next numbers
/// requires ends: IsFinite (I.remaining numbers)
/// requires known: (x : T) → IsSome (T.output x)
/// ensures list: OnOk result ((list : List T) × Drains I.next_gives numbers list
///     × (text.new.items
///     ≡ text.old.items ++ listed separator.now (map (printed T.output) list)))
/// ensures kept: (more : List ℕ) × (text.new.items ≡ text.old.items ++ more)
/// ```
/// [How to read it](ndarray_layout::contracts)
/// </details>
fn push_list<T: Display + Copy, I: Iterator<Item = T>>(
    text: &mut Vec<u8>,
    separator: &str,
    numbers: I,
) -> Result<(), AllocError> {
    let mut numbers = numbers;
    let mut digits = String::new();
    let Some(first) = numbers.next() else {
        return text.fallible_extend_from_slice(b"-");
    };
    push_number(text, &mut digits, first)?;
    for number in numbers {
        text.fallible_extend_from_slice(separator.as_bytes())?;
        push_number(text, &mut digits, number)?;
    }
    Ok(())
}

/// Appends a line: a name, a space, the numbers with the separator between each two, or `-` where there
/// are none, and a line feed.
///
/// Errors: out of memory; what stood in the text before is still its beginning then.
///
/// # Conditions
///
/// The caller ensures that the numbers come to an end, and that it is known what each prints. Otherwise this call or a
/// later one panics or returns unspecified values.
///
/// <details><summary>Contract (proved)</summary>
///
/// ```text
/// requires can: I.can_next numbers
/// requires ends: IsFinite (I.remaining numbers)
/// requires known: (x : T) → IsSome (T.output x)
/// ensures line: OnOk result ((list : List T) × Drains I.next_gives numbers list
///     × (text.new.items
///     ≡ text.old.items
///     ++ line name.now (listed separator.now (map (printed T.output) list))))
/// ensures kept: (more : List ℕ) × (text.new.items ≡ text.old.items ++ more)
/// ```
/// [How to read it](ndarray_layout::contracts)
/// </details>
pub(crate) fn push_line<T: Display + Copy, I: Iterator<Item = T>>(
    text: &mut Vec<u8>,
    name: &str,
    separator: &str,
    numbers: I,
) -> Result<(), AllocError> {
    text.fallible_extend_from_slice(name.as_bytes())?;
    text.fallible_extend_from_slice(b" ")?;
    push_list(text, separator, numbers)?;
    text.fallible_extend_from_slice(b"\n")
}

/// Appends a space and a number.
///
/// Errors: out of memory; the text is unchanged then.
///
/// <details><summary>Contract (proved)</summary>
///
/// ```text
/// ensures text.new.items ≡ (if is_ok result then text.old.items ++ (codes " " ++ decimal place) else text.old.items)
/// ```
/// [How to read it](ndarray_layout::contracts)
/// </details>
#[inline]
fn push_place(text: &mut Vec<u8>, place: usize) -> Result<(), AllocError> {
    let mut word = [0; 1 + MOST_DIGITS];
    let start = write_digits(place, &mut word, 1 + MOST_DIGITS);
    word[start - 1] = b' ';
    text.fallible_extend_from_slice(&word[start - 1..])
}

/// Appends the line of the places: its name, each place after a space, or ` -` where there are none, and a line feed.
///
/// Errors: out of memory.
///
/// # Conditions
///
/// The caller ensures that the places come to an end. Otherwise this call or a later one panics or returns unspecified
/// values.
///
/// <details><summary>Contract (proved)</summary>
///
/// ```text
/// requires can: I.can_next places
/// requires ends: IsFinite (I.remaining places)
/// ensures OnOk result ((list : List ℕ) × Drains I.next_gives places list
///     × (text.new.items
///     ≡ text.old.items
///     ++ line (codes "places") (listed (codes " ") (map decimal list))))
/// ```
/// [How to read it](ndarray_layout::contracts)
/// </details>
pub(crate) fn push_places<I: Iterator<Item = usize>>(text: &mut Vec<u8>, places: I) -> Result<(), AllocError> {
    let mut places = places;
    text.fallible_extend_from_slice(b"places")?;
    let Some(first) = places.next() else {
        return text.fallible_extend_from_slice(b" -\n");
    };
    push_place(text, first)?;
    for place in places {
        push_place(text, place)?;
    }
    text.fallible_extend_from_slice(b"\n")
}
