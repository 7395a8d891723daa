// Made by `rust/erase` of `crates/nd_shape_tests/src/small_layouts.rt`: edit that.
//! All layouts of up to three axes with lengths from 1 to 3 and strides from -9 to 9: what is answered of them is what
//! their places in rising order show, and what the no-alias rule says of each axis against all others.

use crate::test_tables::made;
use ::ndarray_layout::nd_dim::{Dimension, Ix3, IxDyn, unsigned};
use ::ndarray_layout::nd_shape::{CanIndexCheckMode, can_index_slice, dim_stride_overlap};
use CanIndexCheckMode::ReadOnly;
use core::ops::Range;

/// A layout of three axes. For one of fewer axes the first axes have one coordinate.
#[derive(Clone, Copy)]
struct Small {
    lens: [usize; 3],
    strides: [isize; 3],
}

/// An axis by its number below 57: its length and its stride.
fn small_axis(number: usize) -> (usize, isize) {
    (number / 19 % 3 + 1, (number % 19) as isize - 9)
}

/// A layout by its number, those of fewer axes first.
fn small_layout(number: usize) -> Small {
    let first = small_axis(number / 3249 % 57);
    let second = small_axis(number / 57 % 57);
    let third = small_axis(number % 57);
    Small { lens: [first.0, second.0, third.0], strides: [first.1, second.1, third.1] }
}

/// The place of a coordinate of an axis, or none where the axis has no such coordinate.
fn place_of(coordinate: usize, len: usize, stride: isize) -> Option<isize> {
    match coordinate {
        _ if coordinate >= len => None,
        0 => Some(0),
        1 => Some(stride),
        _ => Some(stride.wrapping_add(stride)),
    }
}

impl Small {
    /// The place of three coordinates, or none where they are no index.
    fn place(&self, first: usize, second: usize, third: usize) -> Option<isize> {
        let first = place_of(first, self.lens[0], self.strides[0])?;
        let second = place_of(second, self.lens[1], self.strides[1])?;
        let third = place_of(third, self.lens[2], self.strides[2])?;
        Some(first.wrapping_add(second).wrapping_add(third))
    }

    /// The places of all indices in rising order; the greatest numbers after them are no places.
    fn places(&self) -> [isize; 27] {
        let mut places = [isize::MAX; 27];
        for (number, place) in places.iter_mut().enumerate() {
            *place = self.place(number / 9 % 3, number / 3 % 3, number % 3).unwrap_or(isize::MAX);
        }
        places.sort_unstable();
        places
    }

    /// What the places in rising order show: that no two are equal, and that each is one more than the one before it.
    fn shown(&self) -> (bool, bool) {
        let places = self.places();
        let (mut are_distinct, mut are_consecutive) = (true, true);
        for (place, next) in places.iter().zip(places.iter().skip(1)) {
            if *next != isize::MAX {
                are_distinct &= *place != *next;
                are_consecutive &= place.wrapping_add(1) == *next;
            }
        }
        (are_distinct, are_consecutive)
    }

    /// How far the other axes reach together whose strides are no longer than that of an axis.
    ///
    /// <details><summary>Contract (proved)</summary>
    ///
    /// ```text
    /// requires axis < 3
    /// ```
    /// [How to read it](ndarray_layout::contracts)
    /// </details>
    fn reach_of_others(&self, axis: usize) -> usize {
        let magnitude = self.strides[axis].unsigned_abs();
        let mut reach = 0_usize;
        for other in 0..3 {
            let step = self.strides[other].unsigned_abs();
            if other != axis && step <= magnitude {
                let steps = self.lens[other].saturating_sub(1);
                reach = reach.wrapping_add(step.wrapping_mul(steps));
            }
        }
        reach
    }

    /// Whether the stride of some axis longer than 1 is no longer than the others reach together whose
    /// strides are no longer.
    fn breaks_no_alias_rule(&self) -> bool {
        for axis in 0..3 {
            if self.lens[axis] > 1 && self.strides[axis].unsigned_abs() <= self.reach_of_others(axis) {
                return true;
            }
        }
        false
    }

    /// The strides as they are kept.
    fn kept_strides(&self) -> [usize; 3] {
        let [first, second, third] = self.strides;
        [unsigned(first), unsigned(second), unsigned(third)]
    }
}

/// Whether it is answered of a layout at a dimension type that it is contiguous, or isn't, and that it overlaps, or
/// doesn't.
fn is_answered_at<D: Dimension>(lens: &[usize], strides: &[usize], answers: (bool, bool)) -> bool {
    let (Some(dim), Some(strides)) = (made::<D>(lens), made::<D>(strides)) else {
        return false;
    };
    match can_index_slice(0, usize::MAX, &dim, &strides, ReadOnly) {
        Ok(()) => (D::is_contiguous(&dim, &strides), dim_stride_overlap(&dim, &strides)) == answers,
        Err(_) => false,
    }
}

/// Whether the answers are right for a layout without its first axes, so many of them: at the type of three axes,
/// where there are three, and at that of any number. Where no overlap is answered, all places are distinct.
fn is_answered_rightly(layout: Small, skipped: usize) -> bool {
    let (are_distinct, are_consecutive) = layout.shown();
    let answers = (are_consecutive, layout.breaks_no_alias_rule());
    let kept = layout.kept_strides();
    let (Some(lens), Some(strides)) = (layout.lens.get(skipped..), kept.get(skipped..)) else {
        return false;
    };
    (skipped > 0 || is_answered_at::<Ix3>(lens, strides, answers))
        && is_answered_at::<IxDyn>(lens, strides, answers)
        && (answers.1 || are_distinct)
}

/// The first layout of which an answer is wrong, of those with these numbers, without so many first axes.
fn first_wrong(numbers: Range<usize>, skipped: usize) -> Option<usize> {
    for number in numbers {
        if !is_answered_rightly(small_layout(number), skipped) {
            return Some(number);
        }
    }
    None
}

#[test]
fn layouts_of_up_to_two_axes() {
    assert!(first_wrong(0..1, 3) == None);
    assert!(first_wrong(0..57, 2) == None);
    assert!(first_wrong(0..3249, 1) == None);
}

#[test]
fn layouts_of_three_axes_the_first_of_one_coordinate() {
    assert!(first_wrong(0..61731, 0) == None);
}

#[test]
fn layouts_of_three_axes_the_first_of_two_coordinates() {
    assert!(first_wrong(61731..123462, 0) == None);
}

#[test]
fn layouts_of_three_axes_the_first_of_three_coordinates() {
    assert!(first_wrong(123462..185193, 0) == None);
}
