//! Random steps from a part to another view of its items, beside the model.

use crate::model::{Picked, index_of};
use crate::numbers::Numbers;
use ndarray_layout::{ArrayViewMut, Axis, Fit, IxDyn, Order, SliceInfoElem};

/// A part of a random count of axes, and the places of its items.
type Piece<'a, T> = (ArrayViewMut<'a, T, IxDyn>, Picked);

/// Takes up to four random steps.
pub fn step<'a, T>(numbers: &mut Numbers, part: ArrayViewMut<'a, T, IxDyn>, picked: Picked) -> Piece<'a, T> {
    let mut piece = (part, picked);
    for _ in 0..numbers.below(5) {
        piece = match numbers.below(10) {
            0 => reversed(piece),
            1 => permuted(numbers, piece),
            2 => inverted(numbers, piece),
            3 => swapped(numbers, piece),
            4 => sliced(numbers, piece),
            5 => inserted(numbers, piece),
            6 => indexed(numbers, piece),
            7 => reshaped(numbers, piece),
            8 => chunks(numbers, piece),
            _ => diagonal(numbers, piece),
        };
    }
    piece
}

fn reversed<T>((part, picked): Piece<'_, T>) -> Piece<'_, T> {
    let shape = picked.shape.iter().rev().copied().collect();
    (part.reversed_axes(), picked.seen_as(shape, |index| index.iter().rev().copied().collect()))
}

fn permuted<'a, T>(numbers: &mut Numbers, (part, picked): Piece<'a, T>) -> Piece<'a, T> {
    let order = numbers.axis_order(picked.shape.len());
    let axes: Vec<Axis> = order.iter().map(|axis| Axis(*axis)).collect();
    let shape = order.iter().map(|axis| picked.shape[*axis]).collect();
    let source = |index: &[usize]| {
        let mut old = vec![0; index.len()];
        order.iter().zip(index).for_each(|(axis, coordinate)| old[*axis] = *coordinate);
        old
    };
    (part.permuted_axes(&axes).expect("an order of the axes"), picked.seen_as(shape, source))
}

fn inverted<'a, T>(numbers: &mut Numbers, (mut part, picked): Piece<'a, T>) -> Piece<'a, T> {
    let axis = numbers.below(picked.shape.len() + 1);
    if axis == picked.shape.len() {
        assert!(part.invert_axis(Axis(axis)).is_err());
        return (part, picked);
    }
    part.invert_axis(Axis(axis)).expect("an axis");
    let last = picked.shape[axis].saturating_sub(1);
    let source = |index: &[usize]| {
        let mut old = index.to_vec();
        old[axis] = last - old[axis];
        old
    };
    let shape = picked.shape.clone();
    (part, picked.seen_as(shape, source))
}

fn swapped<'a, T>(numbers: &mut Numbers, (mut part, picked): Piece<'a, T>) -> Piece<'a, T> {
    if picked.shape.is_empty() {
        return (part, picked);
    }
    let (one, other) = (numbers.below(picked.shape.len()), numbers.below(picked.shape.len()));
    part.swap_axes(Axis(one), Axis(other)).expect("axes");
    let mut shape = picked.shape.clone();
    shape.swap(one, other);
    let source = |index: &[usize]| {
        let mut old = index.to_vec();
        old.swap(one, other);
        old
    };
    (part, picked.seen_as(shape, source))
}

fn sliced<'a, T>(numbers: &mut Numbers, (part, picked): Piece<'a, T>) -> Piece<'a, T> {
    let (mut elems, mut coordinates) = (Vec::new(), Vec::new());
    for len in &picked.shape {
        let (start, step) = (numbers.below(len + 1), numbers.pick(&[1, 2, -1]));
        let end = start + numbers.below(len - start + 1);
        elems.push(SliceInfoElem::Slice { start: start as isize, end: Some(end as isize), step });
        let by = step.unsigned_abs();
        let range = start..end;
        coordinates.push(if step < 0 {
            range.rev().step_by(by).collect()
        } else {
            range.step_by(by).collect::<Vec<_>>()
        });
    }
    let shape = coordinates.iter().map(Vec::len).collect();
    let source = |index: &[usize]| index.iter().zip(&coordinates).map(|(at, list)| list[*at]).collect();
    (part.slice_move_with(&elems, Fit::Strict).expect("a slice"), picked.seen_as(shape, source))
}

fn inserted<'a, T>(numbers: &mut Numbers, (part, picked): Piece<'a, T>) -> Piece<'a, T> {
    let axis = numbers.below(picked.shape.len() + 1);
    let mut shape = picked.shape.clone();
    shape.insert(axis, 1);
    let source = |index: &[usize]| [&index[..axis], &index[axis + 1..]].concat();
    (part.insert_axis(Axis(axis)).expect("room for an axis"), picked.seen_as(shape, source))
}

fn indexed<'a, T>(numbers: &mut Numbers, (part, picked): Piece<'a, T>) -> Piece<'a, T> {
    let axis = numbers.below(picked.shape.len() + 1);
    if picked.shape.get(axis).is_none_or(|len| *len == 0) {
        return (part, picked);
    }
    let at = numbers.below(picked.shape[axis]);
    let mut shape = picked.shape.clone();
    shape.remove(axis);
    let source = |index: &[usize]| [&index[..axis], &[at], &index[axis..]].concat();
    (part.index_axis(Axis(axis), at).expect("a coordinate"), picked.seen_as(shape, source))
}

/// Makes two axes of one: of a length the product of two.
fn reshaped<'a, T>(numbers: &mut Numbers, (part, picked): Piece<'a, T>) -> Piece<'a, T> {
    let axis = numbers.below(picked.shape.len() + 1);
    let Some(len) = picked.shape.get(axis).copied().filter(|len| *len > 0) else {
        return (part, picked);
    };
    let divisors: Vec<usize> = (1..=len).filter(|divisor| len % divisor == 0).collect();
    let inner = numbers.pick(&divisors);
    let shape = [&picked.shape[..axis], &[len / inner, inner], &picked.shape[axis + 1..]].concat();
    let source =
        |index: &[usize]| [&index[..axis], &[index[axis] * inner + index[axis + 1]], &index[axis + 2..]].concat();
    let part = part.reshape(&IxDyn(&shape), Order::RowMajor).expect("as many items");
    (part, picked.seen_as(shape.clone(), source))
}

fn chunks<'a, T>(numbers: &mut Numbers, (part, picked): Piece<'a, T>) -> Piece<'a, T> {
    let ndim = picked.shape.len();
    if ndim > 3 || picked.shape.contains(&0) {
        return (part, picked);
    }
    let chunk: Vec<usize> = picked.shape.iter().map(|len| 1 + numbers.below(*len)).collect();
    let counts = picked.shape.iter().zip(&chunk).map(|(len, chunk)| len / chunk);
    let shape = counts.chain(chunk.iter().copied()).collect();
    let source = |index: &[usize]| (0..ndim).map(|axis| index[axis] * chunk[axis] + index[ndim + axis]).collect();
    (part.exact_chunks(&IxDyn(&chunk)).expect("chunks"), picked.seen_as(shape, source))
}

/// Takes the diagonal, of one axis, and lets it have any count of them again.
fn diagonal<'a, T>(numbers: &mut Numbers, (part, picked): Piece<'a, T>) -> Piece<'a, T> {
    if !numbers.once_in(3) {
        return (part, picked);
    }
    let ndim = picked.shape.len();
    let shape = vec![picked.shape.iter().min().copied().unwrap_or(1)];
    let whole = [SliceInfoElem::from(..)];
    let line = part.diag().slice_move_with(&whole, Fit::Strict).expect("one axis");
    (line, picked.seen_as(shape, |index| vec![index[0]; ndim]))
}

impl Picked {
    /// The items of the indices of another shape, each of which has an index of this one.
    pub fn seen_as(&self, shape: Vec<usize>, source: impl Fn(&[usize]) -> Vec<usize>) -> Picked {
        let number = |index: Vec<usize>| index.iter().zip(&self.shape).fold(0, |number, (at, len)| number * len + at);
        let indices = (0..shape.iter().product()).map(|number| index_of(&shape, number));
        let places = indices.map(|index| self.places[number(source(&index))]).collect();
        Picked { places, shape }
    }

    /// The items below a coordinate of an axis, and the others.
    pub fn split(&self, axis: usize, at: usize) -> (Picked, Picked) {
        let (mut low, mut high) = (self.shape.clone(), self.shape.clone());
        (low[axis], high[axis]) = (at, self.shape[axis] - at);
        let above = |index: &[usize]| {
            let mut old = index.to_vec();
            old[axis] += at;
            old
        };
        (self.seen_as(low, <[usize]>::to_vec), self.seen_as(high, above))
    }
}
