// Made by `rust/erase` of `crates/ndarray_layout_c/src/elements.rt`: edit that.
//! The elements of a slice, as C gives them.

use crate::unwritten::MaybeUninit;
use ::ndarray_layout::SliceInfoElem;
use ::ndarray_layout::memory::AllocError;
use ::ndarray_layout::memory::prelude::{FallibleVec, Vec};

/// How many elements are kept without memory.
pub(crate) const FEW: usize = 4;

/// An element of a slice: a range with a step for the kind 0, to the end of the axis where `has_end` is 0; the index `start` for
/// 1; a new axis for 2.
#[repr(C)]
pub struct RawElem {
    pub kind: i32,
    pub has_end: MaybeUninit<i32>,
    pub start: MaybeUninit<isize>,
    pub end: MaybeUninit<isize>,
    pub step: MaybeUninit<isize>,
}

/// Whether the kind of an element has a meaning.
///
/// <details><summary>Contract (proved)</summary>
///
/// ```text
/// ensures result ≡ is_elem raw.now
/// ```
/// [How to read it](ndarray_layout::contracts)
/// </details>
fn is_elem(raw: &RawElem) -> bool {
    raw.kind == 0 || raw.kind == 1 || raw.kind == 2
}

/// Whether each element has a meaning.
///
/// <details><summary>Contract (proved)</summary>
///
/// ```text
/// ensures result ≡ are_elems raws.now
/// ```
/// [How to read it](ndarray_layout::contracts)
/// </details>
pub(crate) fn are_elems(raws: &[RawElem]) -> bool {
    raws.iter().all(|raw| is_elem(raw))
}

/// The meaning of an element.
///
/// <details><summary>Contract (proved)</summary>
///
/// ```text
/// ensures result ≡ elem_named raw.now
/// ```
/// [How to read it](ndarray_layout::contracts)
/// </details>
fn elem_named(raw: &RawElem) -> SliceInfoElem {
    if raw.kind == 0 {
        let end = if unsafe { raw.has_end.assume_init() } == 0 { None } else { Some(unsafe { raw.end.assume_init() }) };
        return SliceInfoElem::Slice {
            start: unsafe { raw.start.assume_init() },
            end,
            step: unsafe { raw.step.assume_init() },
        };
    }
    if raw.kind == 1 {
        return SliceInfoElem::Index(unsafe { raw.start.assume_init() });
    }
    SliceInfoElem::NewAxis
}

/// The meanings of a few elements, with new axes after them.
///
/// <details><summary>Contract (proved)</summary>
///
/// ```text
/// requires length raws.now ≤ 4
/// ensures take (length raws.now) result ≡ elems_named raws.now
/// ```
/// [How to read it](ndarray_layout::contracts)
/// </details>
pub(crate) fn few_elems(raws: &[RawElem]) -> [SliceInfoElem; FEW] {
    let mut elems = [SliceInfoElem::NewAxis; FEW];
    for place in 0..raws.len() {
        elems[place] = elem_named(&raws[place]);
    }
    elems
}

/// The meanings of any number of elements.
///
/// <details><summary>Contract (proved)</summary>
///
/// ```text
/// ensures IfOk result (λ elems. elems.items ≡ elems_named raws.now)
/// ```
/// [How to read it](ndarray_layout::contracts)
/// </details>
pub(crate) fn many_elems(raws: &[RawElem]) -> Result<Vec<SliceInfoElem>, AllocError> {
    let mut elems = Vec::fallible_with_capacity(raws.len())?;
    for raw in raws {
        elems.fallible_push(elem_named(raw))?;
    }
    Ok(elems)
}
