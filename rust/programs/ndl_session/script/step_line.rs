// Made by `rust/erase` of `crates/ndl_session/src/script/step_line.rt`: edit that.
//! The lines of a script that ask for a step.

use crate::ndl_session::script::lists::{dimension, list};
use crate::ndl_session::text::numbers::number;
use ::ndarray_layout::memory::AllocError;
use ::ndarray_layout::{Axis, Fit, Order, SliceInfoElem, Step};

/// The slice by the elements that a word lists; `None` where they aren't of the grammar.
///
/// Errors: out of memory.
///
/// <details><summary>Contract (proved)</summary>
///
/// ```text
/// ensures IfOk result (λ found. option_map step_value found
///     ≡ option_map (λ elems. SliceBy elems fit) (elements_of elems.now))
/// ```
/// [How to read it](ndarray_layout::contracts)
/// </details>
fn slice(elems: &[u8], fit: Fit) -> Result<Option<Step>, AllocError> {
    let Some(elems) = list::<SliceInfoElem>(elems)? else {
        return Ok(None);
    };
    Ok(Some(Step::Slice(elems, fit)))
}

/// The broadcast to the shape that a word lists; `None` where it isn't of the grammar.
///
/// Errors: out of memory.
///
/// <details><summary>Contract (proved)</summary>
///
/// ```text
/// ensures IfOk result (λ found. option_map step_value found ≡ option_map BroadcastTo (lengths_of shape.now))
/// ```
/// [How to read it](ndarray_layout::contracts)
/// </details>
fn broadcast(shape: &[u8]) -> Result<Option<Step>, AllocError> {
    Ok(dimension::<usize>(shape)?.map(Step::Broadcast))
}

/// The collapse of an axis to an index of it; `None` where one of them is no number.
///
/// <details><summary>Contract (proved)</summary>
///
/// ```text
/// ensures option_map step_value result ≡ of_both CollapseTo (number_of axis.now) (number_of index.now)
/// ```
/// [How to read it](ndarray_layout::contracts)
/// </details>
fn collapse(axis: &[u8], index: &[u8]) -> Option<Step> {
    Some(Step::Collapse(Axis(number(axis)?), number(index)?))
}

/// The merge of an axis into another one; `None` where one of them is no number.
///
/// <details><summary>Contract (proved)</summary>
///
/// ```text
/// ensures option_map step_value result ≡ of_both MergeInto (number_of take.now) (number_of into.now)
/// ```
/// [How to read it](ndarray_layout::contracts)
/// </details>
fn merge(take: &[u8], into: &[u8]) -> Option<Step> {
    Some(Step::Merge(Axis(number(take)?), Axis(number(into)?)))
}

/// The order of a name; `None` where it is neither `C` nor `F`.
///
/// <details><summary>Contract (proved)</summary>
///
/// ```text
/// ensures result ≡ order_of_word name.now
/// ```
/// [How to read it](ndarray_layout::contracts)
/// </details>
fn order(name: &[u8]) -> Option<Order> {
    if name == b"C".as_slice() {
        Some(Order::RowMajor)
    } else if name == b"F".as_slice() {
        Some(Order::ColumnMajor)
    } else {
        None
    }
}

/// The reshape in an order to the shape that a word lists; `None` where the words aren't of the grammar.
///
/// Errors: out of memory.
///
/// <details><summary>Contract (proved)</summary>
///
/// ```text
/// ensures IfOk result (λ found. option_map step_value found
///     ≡ of_both (λ order shape.
///     ReshapeTo shape order) (order_of_word name.now) (lengths_of shape.now))
/// ```
/// [How to read it](ndarray_layout::contracts)
/// </details>
fn reshape(name: &[u8], shape: &[u8]) -> Result<Option<Step>, AllocError> {
    let Some(order) = order(name) else {
        return Ok(None);
    };
    Ok(dimension::<usize>(shape)?.map(|shape| Step::Reshape(shape, order)))
}

/// The step by a keyword and a word; `None` where they aren't of the grammar.
///
/// Errors: out of memory.
///
/// <details><summary>Contract (proved)</summary>
///
/// ```text
/// ensures IfOk result (λ found. option_map step_value found ≡ step_of (keyword.now ∷ word.now ∷ []))
/// ```
/// [How to read it](ndarray_layout::contracts)
/// </details>
fn step_of_word(keyword: &[u8], word: &[u8]) -> Result<Option<Step>, AllocError> {
    if keyword == b"slice".as_slice() {
        slice(word, Fit::Strict)
    } else if keyword == b"clamp".as_slice() {
        slice(word, Fit::Clamp)
    } else if keyword == b"broadcast".as_slice() {
        broadcast(word)
    } else {
        Ok(None)
    }
}

/// The step by a keyword and two words; `None` where they aren't of the grammar.
///
/// Errors: out of memory.
///
/// <details><summary>Contract (proved)</summary>
///
/// ```text
/// ensures IfOk result (λ found. option_map step_value found ≡ step_of (keyword.now ∷ first.now ∷ second.now ∷ []))
/// ```
/// [How to read it](ndarray_layout::contracts)
/// </details>
fn step_of_two_words(keyword: &[u8], first: &[u8], second: &[u8]) -> Result<Option<Step>, AllocError> {
    if keyword == b"collapse".as_slice() {
        Ok(collapse(first, second))
    } else if keyword == b"merge".as_slice() {
        Ok(merge(first, second))
    } else if keyword == b"reshape".as_slice() {
        reshape(first, second)
    } else {
        Ok(None)
    }
}

/// The step that the words of a line ask for; `None` where they aren't of the grammar.
///
/// Errors: out of memory.
///
/// <details><summary>Contract (proved)</summary>
///
/// ```text
/// ensures IfOk result (λ found. option_map step_value found ≡ step_of (map (λ word. word.now) words.now))
/// ```
/// [How to read it](ndarray_layout::contracts)
/// </details>
pub(super) fn read_step(words: &[&[u8]]) -> Result<Option<Step>, AllocError> {
    match words {
        [keyword, word] => step_of_word(keyword, word),
        [keyword, first, second] => step_of_two_words(keyword, first, second),
        _ => Ok(None),
    }
}
