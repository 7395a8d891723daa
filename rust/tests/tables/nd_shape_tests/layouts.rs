// Made by `rust/erase` of `crates/nd_shape_tests/src/layouts.rt`: edit that.
//! What calls answer of a layout, by its lengths and strides.
//!
//! What a call requires is tested before it. Strides of another count are none of a type that fixes its count.

use crate::nd_shape_tests::calls::{Question, truth};
use crate::test_tables::{AtType, List, Words, fault_of, layout_fault_name, made, name_of};
use ::ndarray_layout::memory::AllocError;
use ::ndarray_layout::nd_dim::{Axis, LayoutError, Lengths, ShapeError};
use ::ndarray_layout::nd_shape::{
    Axes, AxisDescription, CanIndexCheckMode, NdIndex, axes_of, can_index_slice, co_broadcast, dim_stride_overlap,
    max_abs_offset_check_overflow, merge_axes, move_min_stride_axis_to_last, offset_from_low_addr_ptr_to_logical_ptr,
    size_of_shape_checked,
};

/// A call of a layout. A row says its shape and its strides, and then what else the call takes.
#[derive(Clone, Copy)]
pub(crate) enum OfLayout {
    /// The size of the shape, or its fault.
    Size,
    /// The span, or the fault, for elements of a size.
    Span,
    /// The fault over data, by the size of an element and their count, or `none`.
    Accepted(CanIndexCheckMode),
    /// Whether the layout breaks the no-alias rule.
    Overlap,
    /// How far the layout reaches below its first index.
    LowSpan,
    /// The offset of an index, or `None`.
    Index,
    /// Three axes from the front and from the back in turn: number, length and stride of each.
    Axes,
    /// What two shapes have in common, or the fault.
    Common,
    /// Whether an axis is merged into another one, and the shape and the strides then.
    Merged,
    /// The shape and the strides with the axis of the least stride as the last one.
    Moved,
}

impl AtType for Question<'_, OfLayout> {
    fn at<D: Lengths>(self) -> Option<bool> {
        let dim = made::<D>(self.lists.first.as_slice())?;
        if let OfLayout::Size = self.call {
            return Some(is_size(size_of_shape_checked(&dim), self.answer));
        }
        match made::<D>(self.lists.second.as_slice()) {
            Some(strides) => Some(is_told(&self, dim, strides)),
            None => Some(D::NDIM.is_some()),
        }
    }
}

/// Whether strides make a shape a valid layout.
///
/// <details><summary>Contract (proved)</summary>
///
/// ```text
/// ensures IsTrue result → IsValidLayout (D.list dim.now) (all_signed (D.list strides.now))
/// ```
/// [How to read it](ndarray_layout::contracts)
/// </details>
pub(crate) fn is_valid<D: Lengths>(dim: &D, strides: &D) -> bool {
    match max_abs_offset_check_overflow(0, dim, strides) {
        Ok(_) => true,
        Err(_) => false,
    }
}

/// Whether a number is answered, or a fault is named.
fn is_size(size: Result<usize, ShapeError>, answer: &str) -> bool {
    match size {
        Ok(size) => Words::of(answer).is_length(size),
        Err(fault) => name_of(Some(fault.kind())) == answer,
    }
}

/// Whether a row says what is answered of a shape and strides, or of two shapes.
fn is_told<D: Lengths>(asked: &Question<'_, OfLayout>, mut dim: D, mut strides: D) -> bool {
    let numbers = &asked.lists.third;
    let answer = asked.answer;
    match asked.call {
        OfLayout::Span => {
            let span = max_abs_offset_check_overflow(numbers.at(0), &dim, &strides);
            is_size(span, answer)
        }
        OfLayout::Accepted(mode) => {
            let outcome = can_index_slice(numbers.at(0), numbers.at(1), &dim, &strides, mode);
            name_of(fault_of(outcome)) == answer
        }
        OfLayout::Common => share(&dim, &strides, answer),
        OfLayout::Axes => dim.ndim() == strides.ndim() && are_in_turn(axes_of(&dim, &strides), answer),
        OfLayout::Merged => merges(&mut dim, &mut strides, numbers, answer),
        OfLayout::Moved => moves(&mut dim, &mut strides, answer),
        _ => is_valid(&dim, &strides) && is_told_of_valid(asked, &dim, &strides),
    }
}

/// Whether a row says what is answered of a valid layout.
///
/// <details><summary>Contract (proved)</summary>
///
/// ```text
/// requires IsValidLayout (D.list dim.now) (all_signed (D.list strides.now))
/// ```
/// [How to read it](ndarray_layout::contracts)
/// </details>
fn is_told_of_valid<D: Lengths>(asked: &Question<'_, OfLayout>, dim: &D, strides: &D) -> bool {
    let answer = asked.answer;
    match asked.call {
        OfLayout::Overlap => truth(dim_stride_overlap(dim, strides)) == answer,
        OfLayout::LowSpan => {
            let low = offset_from_low_addr_ptr_to_logical_ptr(dim, strides);
            Words::of(answer).is_length(low)
        }
        _ => match made::<D>(asked.lists.third.as_slice()) {
            Some(index) => index.index_checked(dim, strides) == Words::of(answer).number(),
            None => D::NDIM.is_some(),
        },
    }
}

/// Whether the next words are those of an axis.
fn is_axis(axis: Option<AxisDescription>, words: &mut Words<'_>) -> bool {
    match axis {
        Some(axis) => words.is_length(axis.axis.0) && words.is_length(axis.len) && words.number() == Some(axis.stride),
        None => false,
    }
}

/// Whether three axes are given from the front, from the back and from the front, and then none.
fn are_in_turn(mut axes: Axes<'_>, answer: &str) -> bool {
    let mut words = Words::of(answer);
    is_axis(axes.next(), &mut words)
        && is_axis(axes.next_back(), &mut words)
        && is_axis(axes.next(), &mut words)
        && axes.next().is_none()
}

/// What two shapes of a type have in common. (The call is made here alone, since what is ensured of it is dear.)
fn common_of<D: Lengths>(shape: &D, other: &D) -> Result<D, LayoutError> {
    let count = shape.ndim();
    let other_count = other.ndim();
    let count = if count < other_count { other_count } else { count };
    if D::NDIM.unwrap_or(count) != count {
        return Err(AllocError.into());
    }
    co_broadcast::<D, D, D>(shape, other)
}

/// Whether two shapes have this in common, or this fault.
fn share<D: Lengths>(shape: &D, other: &D, answer: &str) -> bool {
    match common_of(shape, other) {
        Ok(common) => Words::of(answer).is_list(common.slice()),
        Err(error) => layout_fault_name(&error) == answer,
    }
}

/// Whether an axis is merged into another one as is answered: where they are two axes of a valid layout.
fn merges<D: Lengths>(dim: &mut D, strides: &mut D, axes: &List, answer: &str) -> bool {
    let (take, into) = (axes.at(0), axes.at(1));
    let ndim = dim.ndim();
    if take >= ndim || into >= ndim || take == into || !is_valid(&*dim, &*strides) {
        return false;
    }
    let is_merged = merge_axes(dim, strides, Axis(take), Axis(into));
    is_after(truth(is_merged), dim, strides, answer)
}

/// Whether a layout is this one after a call answered a word.
fn is_after<D: Lengths>(word: &str, dim: &D, strides: &D, answer: &str) -> bool {
    let mut words = Words::of(answer);
    words.is(word) && words.is_list(dim.slice()) && words.is_list(strides.slice())
}

/// Whether a layout is this one once the axis of its least stride is the last one.
fn moves<D: Lengths>(dim: &mut D, strides: &mut D, answer: &str) -> bool {
    if dim.ndim() != strides.ndim() {
        return false;
    }
    move_min_stride_axis_to_last(dim, strides);
    is_after("moved", dim, strides, answer)
}
