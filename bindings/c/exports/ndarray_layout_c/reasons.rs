// Made by `rust/erase` of `crates/ndarray_layout_c/src/reasons.rt`: edit that.
//! Why a call returns its error, as C reads it: the rule that is broken, and numbers.

/// The status of a call, the rule that is broken, of which list, and numbers; all 0 where no rule is. Places, spans and strides
/// count elements: `unit` is 0.
#[derive(Clone, Copy)]
#[repr(C)]
pub struct Reason {
    pub status: i32,
    pub rule: i32,
    pub list: i32,
    pub unit: i32,
    pub axis: usize,
    pub number: isize,
    pub size: usize,
    pub other: usize,
}

/// A list is of another count than there are axes.
pub(crate) const COUNT: i32 = 1;

/// An index is no coordinate of its axis.
pub(crate) const INDEX: i32 = 2;

/// A bound of a range means no number from 0 to the length of its axis.
pub(crate) const BOUND: i32 = 3;

/// A step is 0.
pub(crate) const STEP: i32 = 4;

/// The product of the lengths that are not 0 is past the limit.
pub(crate) const SIZE: i32 = 5;

/// The span is past the limit.
pub(crate) const SPAN: i32 = 6;

/// The span in bytes is past the limit.
pub(crate) const BYTES: i32 = 7;

/// The lowest place is below 0.
pub(crate) const LOWEST: i32 = 8;

/// The highest place is past the limit.
pub(crate) const HIGHEST: i32 = 9;

/// The highest place is past the buffer.
pub(crate) const LENGTH: i32 = 10;

/// The no-alias rule is broken at an axis.
pub(crate) const ALIAS: i32 = 11;

/// A new shape has another size.
pub(crate) const OTHER_SIZE: i32 = 12;

/// The strides can't be read along a new shape, without a copy.
pub(crate) const COPY: i32 = 13;

/// An axis isn't listed.
pub(crate) const MISSING: i32 = 14;

/// A coordinate of an index is none of its axis.
pub(crate) const COORDINATE: i32 = 15;

/// Two lengths of an axis have none in common.
pub(crate) const COMMON: i32 = 16;

/// A length is neither 1 nor that of the axis that it is broadcast to.
pub(crate) const STRETCH: i32 = 17;

/// A length of a block is 0.
pub(crate) const EMPTY: i32 = 18;

/// There is no such axis.
pub(crate) const AXIS: i32 = 19;

/// An axis is merged into itself.
pub(crate) const SAME_AXIS: i32 = 20;

/// A split lies past the end of its axis.
pub(crate) const SPLIT: i32 = 21;

/// The strides of a layout.
pub(crate) const STRIDES: i32 = 1;

/// The elements of a slice, but for new axes.
pub(crate) const SLICE: i32 = 2;

/// The coordinates of an index.
pub(crate) const COORDINATES: i32 = 3;

/// The axes in their new order.
pub(crate) const AXES: i32 = 4;

/// The shape that a layout is broadcast to.
pub(crate) const TARGET: i32 = 5;

/// The lengths of a window.
pub(crate) const WINDOW: i32 = 6;

/// The lengths of a chunk.
pub(crate) const CHUNK: i32 = 7;

/// No rule is broken.
///
/// <details><summary>Contract (proved)</summary>
///
/// ```text
/// ensures result ≡ no_reason
/// ```
/// [How to read it](ndarray_layout::contracts)
/// </details>
pub(crate) fn no_reason() -> Reason {
    Reason { status: 0, rule: 0, list: 0, unit: 0, axis: 0, number: 0, size: 0, other: 0 }
}

/// A rule is broken at an axis.
///
/// <details><summary>Contract (proved)</summary>
///
/// ```text
/// ensures result ≡ of_axis status rule axis number size other
/// ```
/// [How to read it](ndarray_layout::contracts)
/// </details>
pub(crate) fn of_axis(status: i32, rule: i32, axis: usize, number: isize, size: usize, other: usize) -> Reason {
    Reason { status, rule, list: 0, unit: 0, axis, number, size, other }
}

/// A list breaks a rule, at an axis where it is a length of it.
///
/// <details><summary>Contract (proved)</summary>
///
/// ```text
/// ensures result ≡ of_list status rule list axis size other
/// ```
/// [How to read it](ndarray_layout::contracts)
/// </details>
pub(crate) fn of_list(status: i32, rule: i32, list: i32, axis: usize, size: usize, other: usize) -> Reason {
    Reason { status, rule, list, unit: 0, axis, number: 0, size, other }
}
