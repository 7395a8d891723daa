// Made by `rust/erase` of `crates/ndl_session/src/script/data_line.rt`: edit that.
//! The line of a script that makes a layout.

use crate::ndl_session::script::lists::dimension;
use crate::ndl_session::text::numbers::number;
use ::ndarray_layout::memory::AllocError;
use ::ndarray_layout::{CanIndexCheckMode, IxDyn};

/// A layout over some data, as a script gives it.
pub struct DataLayout {
    /// How many elements the data has.
    pub len: usize,
    /// Whether two indices may share an element.
    pub mode: CanIndexCheckMode,
    /// The lengths of the axes.
    pub shape: IxDyn,
    /// The strides of the axes, in elements, each as the `usize` of the same bits.
    pub strides: IxDyn,
}

/// The mode of a name; `None` where it is neither `owned` nor `read`.
///
/// <details><summary>Contract (proved)</summary>
///
/// ```text
/// ensures result ≡ mode_of name.now
/// ```
/// [How to read it](ndarray_layout::contracts)
/// </details>
fn mode(name: &[u8]) -> Option<CanIndexCheckMode> {
    if name == b"owned".as_slice() {
        Some(CanIndexCheckMode::OwnedMutable)
    } else if name == b"read".as_slice() {
        Some(CanIndexCheckMode::ReadOnly)
    } else {
        None
    }
}

/// The strides that a word lists, each as the `usize` of the same bits; `None` where one can't be read.
///
/// Errors: out of memory.
///
/// <details><summary>Contract (proved)</summary>
///
/// ```text
/// ensures IfOk result (λ found. option_map (λ kept. all_signed (lengths kept)) found ≡ strides_of word.now)
/// ```
/// [How to read it](ndarray_layout::contracts)
/// </details>
fn kept_strides(word: &[u8]) -> Result<Option<IxDyn>, AllocError> {
    dimension::<isize>(word)
}

/// The layout that the words of a line make; `None` where they aren't of the grammar.
///
/// Errors: out of memory.
///
/// <details><summary>Contract (proved)</summary>
///
/// ```text
/// ensures IfOk result (λ found. option_map layout_value found ≡ layout_of (map (λ word. word.now) words.now))
/// ```
/// [How to read it](ndarray_layout::contracts)
/// </details>
pub(super) fn read_layout(words: &[&[u8]]) -> Result<Option<DataLayout>, AllocError> {
    let [keyword, len, mode_name, shape, strides] = words else {
        return Ok(None);
    };
    if *keyword != b"data".as_slice() {
        return Ok(None);
    }
    let (Some(len), Some(mode)) = (number(len), mode(mode_name)) else {
        return Ok(None);
    };
    let Some(shape) = dimension::<usize>(shape)? else {
        return Ok(None);
    };
    let Some(strides) = kept_strides(strides)? else {
        return Ok(None);
    };
    Ok(Some(DataLayout { len, mode, shape, strides }))
}
