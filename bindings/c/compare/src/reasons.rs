//! Why calls return their errors: 100,000 random calls of both libraries, and of a plain model.

use crate::arguments::{axes, axis, buffer_len, index, other_shape, target};
use crate::blocks::block;
use crate::compare::*;
use crate::model::layouts::{LIMIT, is_empty, low_and_high, product_without_zeros, size, span};
use crate::ndarray_layout_c::reasons::Reason;
use crate::numbers::Numbers;
use crate::slices::{Elem, elems, raw};
use std::collections::BTreeMap;
use std::fmt::Debug;

/// The status, the rule, the axis, the number, the size, the other one and the list of a reason, which counts elements.
type Told = (i32, i32, usize, isize, usize, usize, i32);

const NO_REASON: Told = (OK, 0, 0, 0, 0, 0, 0);
const NOT_TOLD: Told = (NO_ANSWER, NO_ANSWER, UNWRITTEN, -77, UNWRITTEN, UNWRITTEN, -77);

const STRIDES: i32 = 1;
const SLICE: i32 = 2;
const COORDINATES: i32 = 3;
const AXES: i32 = 4;
const TARGET: i32 = 5;
const WINDOW: i32 = 6;
const CHUNK: i32 = 7;

const COUNT: i32 = 1;
const INDEX: i32 = 2;
const BOUND: i32 = 3;
const STEP: i32 = 4;
const SIZE: i32 = 5;
const SPAN: i32 = 6;
const BYTES: i32 = 7;
const LOWEST: i32 = 8;
const HIGHEST: i32 = 9;
const LENGTH: i32 = 10;
const ALIAS: i32 = 11;
const OTHER_SIZE: i32 = 12;
const COPY: i32 = 13;
const MISSING: i32 = 14;
const COORDINATE: i32 = 15;
const COMMON: i32 = 16;
const STRETCH: i32 = 17;
const EMPTY: i32 = 18;
const AXIS: i32 = 19;
const SAME_AXIS: i32 = 20;
const SPLIT: i32 = 21;

/// What a call returns, and what it writes over a reason that nothing has written.
fn told(call: impl FnOnce(&mut Reason) -> i32) -> (i32, Told) {
    let (status, rule, axis, number, size, other, list) = NOT_TOLD;
    let mut reason = Reason { status, rule, list, unit: -77, axis, number, size, other };
    let returned = call(&mut reason);
    let Reason { status, rule, list, unit, axis, number, size, other } = reason;
    assert_eq!(unit, if returned == OK { 0 } else { -77 });
    (returned, (status, rule, axis, number, size, other, list))
}

macro_rules! compare_reasons {
    ($call:literal, $rules:expr, $arguments:expr, $made:expr, $model:expr $(,)?) => {
        compare_reasons(
            $call,
            &$rules,
            $arguments,
            {
                use crate::exports::erased::*;
                $made
            },
            {
                use crate::exports::proved::*;
                $made
            },
            $model,
        )
    };
}

/// Compares the calls of both libraries with a model, which has none for a bad argument. Each of the rules comes in some of
/// them, and no other one.
fn compare_reasons<A: Debug>(
    call: &str,
    rules: &[i32],
    arguments: impl Fn(&mut Numbers) -> A,
    erased: impl Fn(&A) -> (i32, Told),
    proved: impl Fn(&A) -> (i32, Told),
    model: impl Fn(&A) -> Option<Told>,
) {
    let mut numbers = Numbers::new(call.bytes().map(u64::from).sum::<u64>() * 1_000_003);
    let mut counts = BTreeMap::<i32, usize>::new();
    for _ in 0..100_000 {
        let arguments = arguments(&mut numbers);
        let expected = model(&arguments).map_or((BAD_ARGUMENT, NOT_TOLD), |told| (OK, told));
        assert_eq!(proved(&arguments), expected, "the proved library, and the model: {call} of {arguments:?}");
        assert_eq!(erased(&arguments), expected, "the package, and the model: {call} of {arguments:?}");
        *counts.entry(expected.1.1).or_default() += 1;
    }
    println!("{call}: {counts:?}");
    assert!(counts.keys().eq(rules), "{call}: of the rules {rules:?} came {counts:?}");
    assert!(counts.values().all(|count| *count >= 100), "{call}: few of a rule: {counts:?}");
}

/// The first axis whose element doesn't fit, as a reader of the header would look for it.
fn of_slice(shape: &[usize], elems: &[Elem], clamps: bool) -> Told {
    let on_axes: Vec<_> = elems.iter().filter(|elem| elem.kind != 2).collect();
    if on_axes.len() != shape.len() {
        return (INCOMPATIBLE_SHAPE, COUNT, 0, 0, on_axes.len(), shape.len(), SLICE);
    }
    for (axis, (len, elem)) in shape.iter().zip(on_axes).enumerate() {
        let (least, most) = (-(*len as i128), *len as i128);
        if elem.kind == 1 {
            if !(least..most).contains(&(elem.start as i128)) {
                return (OUT_OF_BOUNDS, INDEX, axis, elem.start, *len, 0, 0);
            }
            continue;
        }
        let bounds = [Some(elem.start), (elem.has_end != 0).then_some(elem.end)];
        let outside = bounds.into_iter().flatten().find(|bound| !(least..=most).contains(&(*bound as i128)));
        if let (Some(bound), false) = (outside, clamps) {
            return (OUT_OF_BOUNDS, BOUND, axis, bound, *len, 0, 0);
        }
        if elem.step == 0 {
            return (UNSUPPORTED, STEP, axis, 0, *len, 0, 0);
        }
    }
    NO_REASON
}

#[test]
fn slice_reason() {
    let arguments = |numbers: &mut Numbers| {
        let shape = shape(numbers);
        let elems = elems(numbers, &shape);
        (shape, elems, choice(numbers))
    };
    let rules = [NO_ANSWER, 0, COUNT, INDEX, BOUND, STEP];
    compare_reasons!(
        "nd_slice_reason",
        rules,
        arguments,
        |(shape, elems, fit)| told(|reason| nd_slice_reason(shape, &raw(elems), *fit, reason)),
        |(shape, elems, fit)| {
            let is_known = elems.iter().all(|elem| (0..=2).contains(&elem.kind)) && (0..=1).contains(fit);
            is_known.then(|| of_slice(shape, elems, *fit == 1))
        },
    );
}

/// A shape, its strides, the bytes of an element, the length of a buffer, and the mode.
type Layout = (Vec<usize>, Vec<isize>, usize, usize, i32);

/// The first rule that a layout breaks, from a start or the lowest that it can have.
fn of_layout(start: Option<usize>, (shape, strides, elem_size, len, mode): &Layout) -> Option<Told> {
    if !(0..=1).contains(mode) {
        return None;
    }
    let broken = |status: i32, rule: i32, size: i128, other: usize| Some((status, rule, 0, 0, size as usize, other, 0));
    if shape.len() != strides.len() {
        return Some((INCOMPATIBLE_LAYOUT, COUNT, 0, 0, strides.len(), shape.len(), STRIDES));
    }
    let (span, (low, high)) = (span(shape, strides), low_and_high(shape, strides));
    if product_without_zeros(shape) > LIMIT {
        return broken(OVERFLOW, SIZE, 0, 0);
    }
    if span > LIMIT {
        return broken(OVERFLOW, SPAN, 0, 0);
    }
    if span.saturating_mul(*elem_size as i128) > LIMIT {
        return broken(OVERFLOW, BYTES, span, *elem_size);
    }
    let start = start.map_or(low, |start| start as i128);
    let highest = start + high;
    if start < low {
        return broken(OUT_OF_BOUNDS, LOWEST, low, start as usize);
    }
    if highest > LIMIT {
        return broken(OUT_OF_BOUNDS, HIGHEST, high, start as usize);
    }
    if highest + i128::from(!is_empty(shape)) > *len as i128 {
        return broken(OUT_OF_BOUNDS, LENGTH, highest, *len);
    }
    let owned = *mode == 1 && !is_empty(shape);
    Some(owned.then(|| of_aliases(shape, strides)).flatten().unwrap_or(NO_REASON))
}

fn of_aliases(shape: &[usize], strides: &[isize]) -> Option<Told> {
    (0..shape.len()).filter(|axis| shape[*axis] > 1).find_map(|axis| {
        let others = (0..shape.len()).filter(|other| *other != axis && shape[*other] > 0);
        let no_greater = others.filter(|other| strides[*other].unsigned_abs() <= strides[axis].unsigned_abs());
        let reach: i128 = no_greater.map(|other| (shape[other] as i128 - 1) * (strides[other] as i128).abs()).sum();
        let is_within = (strides[axis] as i128).abs() <= reach;
        is_within.then_some((UNSUPPORTED, ALIAS, axis, strides[axis], reach as usize, 0, 0))
    })
}

#[test]
fn layout_start_reason() {
    let arguments = |numbers: &mut Numbers| {
        let (shape, strides) = layout(numbers);
        let elem_size = numbers.pick(&[0, 1, 1, 2, 4, 8, 1 << 40, usize::MAX]);
        let len = buffer_len(numbers, &shape, &strides);
        (shape, strides, elem_size, len, choice(numbers))
    };
    let rules = [NO_ANSWER, 0, COUNT, SIZE, SPAN, BYTES, LENGTH, ALIAS];
    compare_reasons!(
        "nd_layout_start_reason",
        rules,
        arguments,
        |(shape, strides, elem_size, len, mode)| told(|reason| {
            nd_layout_start_reason(shape, &kept(strides), *elem_size, *len, *mode, reason)
        }),
        |layout| of_layout(None, layout),
    );
}

#[test]
fn check_layout_reason() {
    let arguments = |numbers: &mut Numbers| {
        let view = view(numbers);
        let elem_size = numbers.pick(&[1, 1, 2, 8, 1 << 62]);
        let len = buffer_len(numbers, &view.shape, &view.strides).saturating_add(numbers.below(20));
        (view.start, (view.shape, view.strides, elem_size, len, choice(numbers)))
    };
    let rules = [NO_ANSWER, 0, COUNT, SIZE, SPAN, BYTES, LOWEST, HIGHEST, LENGTH, ALIAS];
    compare_reasons!(
        "nd_check_layout_reason",
        rules,
        arguments,
        |(start, (shape, strides, elem_size, len, mode))| told(|reason| {
            nd_check_layout_reason(*start, shape, &kept(strides), *elem_size, *len, *mode, reason)
        }),
        |(start, layout)| of_layout(Some(*start), layout),
    );
}

/// Why a layout can't be read along a shape: the first two axes, as they are read, that aren't one and that the shape doesn't part.
fn of_reshape(shape: &[usize], strides: &[isize], to: &[usize], by_columns: bool) -> Told {
    let layout = (shape.to_vec(), strides.to_vec(), 1, usize::MAX, 0);
    match of_layout(None, &layout) {
        Some(NO_REASON) => {}
        other => return other.expect("the mode is one"),
    }
    if product_without_zeros(to) > LIMIT {
        return (OVERFLOW, SIZE, 0, 0, 0, 0, 0);
    }
    let other_size = (INCOMPATIBLE_SHAPE, OTHER_SIZE, 0, 0, size(to) as usize, size(shape) as usize, 0);
    match (is_empty(shape), is_empty(to)) {
        (true, true) => return NO_REASON,
        (false, false) => {}
        _ => return other_size,
    }
    let read =
        |count: usize| -> Vec<usize> { if by_columns { (0..count).rev().collect() } else { (0..count).collect() } };
    let mut boundaries = vec![1];
    for axis in read(to.len()) {
        boundaries.push(boundaries[boundaries.len() - 1] * to[axis] as i128);
    }
    let axes: Vec<_> = read(shape.len()).into_iter().filter(|axis| shape[*axis] != 1).collect();
    let mut product = 1;
    for pair in axes.windows(2) {
        let [slow, fast] = [pair[0], pair[1]];
        product *= shape[slow] as i128;
        let is_one = strides[slow] as i128 == shape[fast] as i128 * strides[fast] as i128;
        if !is_one && product < size(to) && !boundaries.contains(&product) {
            return (INCOMPATIBLE_LAYOUT, COPY, fast, strides[fast], shape[fast], 0, 0);
        }
    }
    if size(shape) == size(to) { NO_REASON } else { other_size }
}

#[test]
fn reshape_reason() {
    let arguments = |numbers: &mut Numbers| {
        let (shape, strides) = layout(numbers);
        let to = other_shape(numbers, &shape);
        (shape, strides, to, choice(numbers))
    };
    let rules = [NO_ANSWER, 0, COUNT, SIZE, SPAN, OTHER_SIZE, COPY];
    compare_reasons!(
        "nd_reshape_reason",
        rules,
        arguments,
        |(shape, strides, to, order)| told(|reason| nd_reshape_reason(shape, &kept(strides), to, *order, reason)),
        |(shape, strides, to, order)| { (0..=1).contains(order).then(|| of_reshape(shape, strides, to, *order == 1)) },
    );
}

/// The first axis that isn't in a list, or else how many the list has.
fn of_axes(shape: &[usize], axes: &[usize]) -> Told {
    match (0..shape.len()).find(|axis| !axes.contains(axis)) {
        Some(axis) => (INCOMPATIBLE_SHAPE, MISSING, axis, 0, axes.len(), shape.len(), 0),
        None if axes.len() > shape.len() => (INCOMPATIBLE_SHAPE, COUNT, 0, 0, axes.len(), shape.len(), AXES),
        None => NO_REASON,
    }
}

#[test]
fn permuted_axes_reason() {
    let arguments = |numbers: &mut Numbers| {
        let shape = shape(numbers);
        let axes = axes(numbers, &shape);
        (shape, axes)
    };
    compare_reasons!(
        "nd_permuted_axes_reason",
        [0, COUNT, MISSING],
        arguments,
        |(shape, axes)| told(|reason| nd_permuted_axes_reason(shape, axes, reason)),
        |(shape, axes)| Some(of_axes(shape, axes)),
    );
}

/// How many coordinates a list has, unless that is one for each axis, or else the first that its axis doesn't have.
fn of_index(shape: &[usize], index: &[usize]) -> Told {
    if index.len() != shape.len() {
        return (OUT_OF_BOUNDS, COUNT, 0, 0, index.len(), shape.len(), COORDINATES);
    }
    match shape.iter().zip(index).position(|(len, coordinate)| coordinate >= len) {
        Some(axis) => (OUT_OF_BOUNDS, COORDINATE, axis, 0, index[axis], shape[axis], 0),
        None => NO_REASON,
    }
}

#[test]
fn index_reason() {
    let arguments = |numbers: &mut Numbers| {
        let shape = shape(numbers);
        let index = index(numbers, &shape);
        (shape, index)
    };
    compare_reasons!(
        "nd_index_reason",
        [0, COUNT, COORDINATE],
        arguments,
        |(shape, index)| told(|reason| nd_index_reason(shape, index, reason)),
        |(shape, index)| Some(of_index(shape, index)),
    );
}

/// The first axis, from the front of the longer shape, of which the two have lengths that don't go together.
fn of_common_shape(first: &[usize], second: &[usize]) -> Told {
    let axes = first.len().max(second.len());
    let pairs = first.iter().rev().zip(second.iter().rev());
    let mut apart = pairs.enumerate().filter(|(_, (one, other))| one != other && **one != 1 && **other != 1);
    apart.next_back().map_or(NO_REASON, |(from_back, (one, other))| {
        (INCOMPATIBLE_SHAPE, COMMON, axes - 1 - from_back, 0, *one, *other, 0)
    })
}

#[test]
fn co_broadcast_reason() {
    let arguments = |numbers: &mut Numbers| {
        let first = shape(numbers);
        let second = target(numbers, &first);
        if numbers.once_in(2) { (second, first) } else { (first, second) }
    };
    compare_reasons!(
        "nd_co_broadcast_reason",
        [0, COMMON],
        arguments,
        |(first, second)| told(|reason| nd_co_broadcast_reason(first, second, reason)),
        |(first, second)| Some(of_common_shape(first, second)),
    );
}

/// How many axes a shape has that are too few, or else the first that keeps its own length, or else that it is too large.
fn of_target(shape: &[usize], target: &[usize]) -> Told {
    let Some(new_axes) = target.len().checked_sub(shape.len()) else {
        return (INCOMPATIBLE_SHAPE, COUNT, 0, 0, target.len(), shape.len(), TARGET);
    };
    for (axis, len) in shape.iter().enumerate() {
        if ![1, target[new_axes + axis]].contains(len) {
            return (INCOMPATIBLE_SHAPE, STRETCH, new_axes + axis, 0, *len, target[new_axes + axis], 0);
        }
    }
    if product_without_zeros(target) > LIMIT { (OVERFLOW, SIZE, 0, 0, 0, 0, 0) } else { NO_REASON }
}

#[test]
fn broadcast_reason() {
    let arguments = |numbers: &mut Numbers| {
        let shape = shape(numbers);
        let target = target(numbers, &shape);
        (shape, target)
    };
    compare_reasons!(
        "nd_broadcast_reason",
        [0, COUNT, SIZE, STRETCH],
        arguments,
        |(shape, target)| told(|reason| nd_broadcast_reason(shape, target, reason)),
        |(shape, target)| Some(of_target(shape, target)),
    );
}

/// How many lengths a block has, unless that is one for each axis, or else the first that is 0, or else that there are too many
/// indices, where so many blocks lie along an axis.
fn of_blocks(list: i32, shape: &[usize], block: &[usize], count: impl Fn(usize, usize) -> usize) -> Told {
    if block.len() != shape.len() {
        return (INCOMPATIBLE_SHAPE, COUNT, 0, 0, block.len(), shape.len(), list);
    }
    if let Some(axis) = block.iter().position(|len| *len == 0) {
        return (UNSUPPORTED, EMPTY, axis, 0, 0, 0, list);
    }
    let mut lens: Vec<_> = shape.iter().zip(block).map(|(len, size)| count(*len, *size)).collect();
    lens.extend(block);
    if product_without_zeros(&lens) > LIMIT { (OVERFLOW, SIZE, 0, 0, 0, 0, 0) } else { NO_REASON }
}

/// A shape, and a block of it, seldom not one of a length for each axis.
fn shape_and_block(numbers: &mut Numbers) -> (Vec<usize>, Vec<usize>) {
    let shape = shape(numbers);
    let block = block(numbers, &shape);
    (shape, block)
}

#[test]
fn windows_reason() {
    let count = |len: usize, size: usize| if size > len { 0 } else { len - size + 1 };
    compare_reasons!(
        "nd_windows_reason",
        [0, COUNT, SIZE, EMPTY],
        shape_and_block,
        |(shape, window)| told(|reason| nd_windows_reason(shape, window, reason)),
        |(shape, window)| Some(of_blocks(WINDOW, shape, window, count)),
    );
}

#[test]
fn exact_chunks_reason() {
    compare_reasons!(
        "nd_exact_chunks_reason",
        [0, COUNT, SIZE, EMPTY],
        shape_and_block,
        |(shape, chunk)| told(|reason| nd_exact_chunks_reason(shape, chunk, reason)),
        |(shape, chunk)| Some(of_blocks(CHUNK, shape, chunk, |len, size| len / size)),
    );
}

#[test]
fn split_at_reason() {
    let arguments = |numbers: &mut Numbers| {
        let shape = shape(numbers);
        let axis = axis(numbers, &shape);
        let len = shape.get(axis).copied().unwrap_or(0);
        let index = if numbers.once_in(20) { numbers.extreme_len() } else { numbers.below(len.min(1 << 40) + 2) };
        (shape, axis, index)
    };
    compare_reasons!(
        "nd_split_at_reason",
        [0, AXIS, SPLIT],
        arguments,
        |(shape, axis, index)| told(|reason| nd_split_at_reason(shape, *axis, *index, reason)),
        |(shape, axis, index)| Some(match shape.get(*axis) {
            None => (OUT_OF_BOUNDS, AXIS, *axis, 0, shape.len(), 0, 0),
            Some(len) if index > len => (OUT_OF_BOUNDS, SPLIT, *axis, 0, *len, *index, 0),
            Some(_) => NO_REASON,
        }),
    );
}

#[test]
fn merge_axes_reason() {
    let arguments = |numbers: &mut Numbers| {
        let shape = shape(numbers);
        let (take, into) = (axis(numbers, &shape), axis(numbers, &shape));
        (shape, take, into)
    };
    compare_reasons!(
        "nd_merge_axes_reason",
        [0, AXIS, SAME_AXIS],
        arguments,
        |(shape, take, into)| told(|reason| nd_merge_axes_reason(shape, *take, *into, reason)),
        |(shape, take, into)| Some(match [take, into].into_iter().find(|axis| **axis >= shape.len()) {
            Some(axis) => (OUT_OF_BOUNDS, AXIS, *axis, 0, shape.len(), 0, 0),
            None if take == into => (UNSUPPORTED, SAME_AXIS, *take, 0, 0, 0, 0),
            None => NO_REASON,
        }),
    );
}
