//! Random arguments of calls: mostly such as go together.

use crate::model::{View, layouts};
use crate::numbers::Numbers;

/// A layout with a start, most often such that all places lie from 0 to the limit.
pub fn view(numbers: &mut Numbers) -> View {
    let (shape, strides) = numbers.layout();
    let (low, high) = layouts::low_and_high(&shape, &strides);
    View { start: numbers.start(low, high), shape, strides }
}

/// The limit as a length of a buffer, lengths near the span, and any.
pub fn buffer_len(numbers: &mut Numbers, shape: &[usize], strides: &[isize]) -> usize {
    let span = layouts::span(shape, strides).min(isize::MAX as i128) as usize;
    match numbers.below(8) {
        0 => numbers.extreme_len(),
        1 => span,
        2 => span.saturating_sub(numbers.below(3)),
        _ => span + 1 + numbers.below(4),
    }
}

/// An index of a shape, or what nearly is one.
pub fn index(numbers: &mut Numbers, shape: &[usize]) -> Vec<usize> {
    let mut index: Vec<usize> = shape.iter().map(|len| numbers.below((*len).clamp(1, 1 << 40))).collect();
    match numbers.below(12) {
        0 => index.push(0),
        1 => drop(index.pop()),
        2 if !index.is_empty() => {
            let axis = numbers.below(index.len());
            index[axis] = numbers.pick(&[shape[axis], shape[axis].wrapping_sub(1), usize::MAX]);
        }
        _ => {}
    }
    index
}

/// A shape that is mostly one that a shape can be broadcast to.
pub fn target(numbers: &mut Numbers, shape: &[usize]) -> Vec<usize> {
    let mut target = shape.to_vec();
    for len in &mut target {
        if *len == 1 || numbers.once_in(20) {
            *len = numbers.pick(&[0, 1, 2, 3, 4, 7]);
        }
    }
    for _ in 0..numbers.pick(&[0, 0, 1, 2]) {
        target.insert(0, numbers.pick(&[0, 1, 2, 3, 1 << 31]));
    }
    if numbers.once_in(20) && !target.is_empty() {
        target.remove(0);
    }
    if numbers.once_in(20) {
        target.insert(0, numbers.extreme_len());
    }
    target
}

/// A shape made of the factors of another one, seldom of another size.
pub fn other_shape(numbers: &mut Numbers, shape: &[usize]) -> Vec<usize> {
    let mut factors = split_lengths(numbers, shape);
    let mut k = 0;
    while k + 1 < factors.len() {
        if numbers.once_in(3) {
            factors[k] = factors[k].saturating_mul(factors.remove(k + 1));
        }
        k += 1;
    }
    for _ in 0..numbers.pick(&[0, 0, 1, 2]) {
        let at = numbers.below(factors.len() + 1);
        factors.insert(at, 1);
    }
    if numbers.once_in(4) {
        factors.retain(|len| *len != 1);
    }
    if numbers.once_in(8) && !factors.is_empty() {
        let at = numbers.below(factors.len());
        factors[at] = if numbers.once_in(4) { numbers.extreme_len() } else { numbers.below(6) };
    }
    factors
}

/// Lengths of which some stand as two factors.
fn split_lengths(numbers: &mut Numbers, shape: &[usize]) -> Vec<usize> {
    let mut factors = shape.to_vec();
    for k in 0..shape.len() {
        let divisor = numbers.pick(&[2, 2, 3, 5, 1 << 16]);
        let rest = factors[k] / divisor;
        if rest * divisor == factors[k] && numbers.once_in(2) {
            factors[k] = rest;
            factors.insert(k, divisor);
        }
    }
    factors
}

/// An axis of a shape, seldom one that it doesn't have.
pub fn axis(numbers: &mut Numbers, shape: &[usize]) -> usize {
    match numbers.below(30) {
        0 => numbers.extreme_len(),
        1 => shape.len(),
        _ => numbers.below(shape.len().max(1)),
    }
}

/// The axes of a shape in an order, seldom not just once each.
pub fn axes(numbers: &mut Numbers, shape: &[usize]) -> Vec<usize> {
    let mut axes = numbers.axis_order(shape.len());
    match numbers.below(15) {
        0 => axes.push(numbers.below(8)),
        1 => drop(axes.pop()),
        2 if !axes.is_empty() => axes[0] = numbers.extreme_len(),
        _ => {}
    }
    axes
}
