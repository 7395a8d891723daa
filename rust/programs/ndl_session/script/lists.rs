// Made by `rust/erase` of `crates/ndl_session/src/script/lists.rt`: edit that.
//! Lists as words spell them.

use crate::ndl_session::text::numbers::{number, signed_number};
use crate::ndl_session::text::words::split_once;
use ::ndarray_layout::memory::AllocError;
use ::ndarray_layout::memory::prelude::{FallibleVec, Vec};
use ::ndarray_layout::{IxDyn, IxDynImpl, unsigned};

/// What a list can have as items.
pub(super) trait Item {
    /// An item as it is kept.
    type Kept: Sized;

    /// The item that a text spells; `None` where it spells none.
    ///
    /// <details><summary>Contract (proved)</summary>
    ///
    /// ```text
    /// ensures result ≡ item_of text.now
    /// ```
    /// [How to read it](ndarray_layout::contracts)
    /// </details>
    fn read(text: &[u8]) -> Option<Self::Kept>;
}

/// A length.
impl Item for usize {
    type Kept = usize;

    fn read(text: &[u8]) -> Option<usize> {
        number(text)
    }
}

/// A stride, which is kept as the `usize` of the same bits.
impl Item for isize {
    type Kept = usize;

    fn read(text: &[u8]) -> Option<usize> {
        Some(unsigned(signed_number(text)?))
    }
}

/// The items that commas separate, one at least; `None` where one can't be read.
///
/// Errors: out of memory.
///
/// <details><summary>Contract (proved)</summary>
///
/// ```text
/// ensures IfOk result (λ found. option_map (λ v. v.items) found ≡ read_each T.item_of (cut_at comma word.now))
/// ```
/// [How to read it](ndarray_layout::contracts)
/// </details>
fn items<T: Item>(word: &[u8]) -> Result<Option<Vec<T::Kept>>, AllocError> {
    let mut items = Vec::new();
    let mut rest = word;
    while let Some((text, after)) = split_once(rest, b',') {
        let Some(item) = T::read(text) else {
            return Ok(None);
        };
        items.fallible_push(item)?;
        rest = after;
    }
    let Some(item) = T::read(rest) else {
        return Ok(None);
    };
    items.fallible_push(item)?;
    Ok(Some(items))
}

/// The items of a list, separated by commas; `-` is the empty list. `None` where one can't be read.
///
/// Errors: out of memory.
///
/// <details><summary>Contract (proved)</summary>
///
/// ```text
/// ensures IfOk result (λ found. option_map (λ v. v.items) found ≡ list_of T.item_of word.now)
/// ```
/// [How to read it](ndarray_layout::contracts)
/// </details>
pub(super) fn list<T: Item>(word: &[u8]) -> Result<Option<Vec<T::Kept>>, AllocError> {
    if word == b"-".as_slice() {
        return Ok(Some(Vec::new()));
    }
    items::<T>(word)
}

/// The numbers of a list as those of the axes, in the memory in which they were read; `None` where one can't be read.
///
/// Errors: out of memory.
///
/// <details><summary>Contract (proved)</summary>
///
/// ```text
/// ensures IfOk result (λ found. option_map lengths found ≡ list_of T.item_of word.now)
/// ```
/// [How to read it](ndarray_layout::contracts)
/// </details>
pub(super) fn dimension<T: Item<Kept = usize>>(word: &[u8]) -> Result<Option<IxDyn>, AllocError> {
    let Some(numbers) = list::<T>(word)? else {
        return Ok(None);
    };
    Ok(Some(IxDyn::new(IxDynImpl::from_vec(numbers)?)))
}
