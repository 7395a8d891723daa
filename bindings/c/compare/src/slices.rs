//! Slices of a layout, and of a shape.

use crate::compare::*;
use crate::ndarray_layout_c::elements::RawElem;
use crate::numbers::Numbers;
use ndarray_layout::SliceInfoElem;
use std::mem::MaybeUninit;

/// An element as C gives it.
#[derive(Debug)]
pub struct Elem {
    pub kind: i32,
    pub has_end: i32,
    pub start: isize,
    pub end: isize,
    pub step: isize,
}

/// An element with any numbers in the fields that its kind doesn't name, seldom of a kind without a meaning.
fn in_c(numbers: &mut Numbers, elem: SliceInfoElem) -> Elem {
    let mut elem = match elem {
        SliceInfoElem::Slice { start, end: Some(end), step } => {
            Elem { kind: 0, has_end: numbers.pick(&[1, 1, 2, -1, i32::MIN]), start, end, step }
        }
        SliceInfoElem::Slice { start, end: None, step } => {
            Elem { kind: 0, has_end: 0, start, end: numbers.extreme_stride(), step }
        }
        SliceInfoElem::Index(start) => {
            let (end, step) = (numbers.extreme_stride(), numbers.extreme_stride());
            Elem { kind: 1, has_end: choice(numbers), start, end, step }
        }
        SliceInfoElem::NewAxis => {
            let [start, end, step] = [(); 3].map(|()| numbers.extreme_stride());
            Elem { kind: 2, has_end: choice(numbers), start, end, step }
        }
    };
    if numbers.once_in(300) {
        elem.kind = numbers.pick(&[-1, 3, i32::MIN, i32::MAX]);
    }
    elem
}

pub fn elems(numbers: &mut Numbers, shape: &[usize]) -> Vec<Elem> {
    numbers.elems(shape).into_iter().map(|elem| in_c(numbers, elem)).collect()
}

pub fn raw(elems: &[Elem]) -> Vec<RawElem> {
    let raw = |elem: &Elem| RawElem {
        kind: elem.kind,
        has_end: MaybeUninit::new(elem.has_end),
        start: MaybeUninit::new(elem.start),
        end: MaybeUninit::new(elem.end),
        step: MaybeUninit::new(elem.step),
    };
    elems.iter().map(raw).collect()
}

const STATUSES: [i32; 6] = [OK, INCOMPATIBLE_SHAPE, OUT_OF_BOUNDS, UNSUPPORTED, OVERFLOW, BAD_ARGUMENT];

#[test]
fn slice() {
    let arguments = |numbers: &mut Numbers| {
        let view = view(numbers);
        let elems = elems(numbers, &view.shape);
        let left = elems.iter().filter(|elem| elem.kind != 1).count();
        let rooms = (room(numbers, left), room(numbers, left));
        (view.start, view.shape, kept(&view.strides), elems, choice(numbers), rooms)
    };
    let statuses = [OK, INCOMPATIBLE_SHAPE, INCOMPATIBLE_LAYOUT, OUT_OF_BOUNDS, UNSUPPORTED, OVERFLOW, BAD_ARGUMENT];
    compare!("nd_slice", statuses, arguments, |(start, shape, strides, elems, fit, rooms)| {
        let (mut new_start, (mut new_shape, mut new_strides)) = (UNWRITTEN, rooms.clone());
        let (elems, fit) = (raw(elems), *fit);
        let status = nd_slice(*start, shape, strides, &elems, fit, &mut new_start, &mut new_shape, &mut new_strides);
        (status, (new_start, new_shape, new_strides))
    });
}

#[test]
fn slices_intersect() {
    let long = [1_000, 99_991, 1 << 40, isize::MAX as usize];
    let arguments = |numbers: &mut Numbers| {
        let shape = if numbers.once_in(3) { vec![numbers.pick(&long)] } else { shape(numbers) };
        let (first, second) = (elems(numbers, &shape), elems(numbers, &shape));
        (shape, first, second, choice(numbers))
    };
    compare!("nd_slices_intersect", STATUSES, arguments, |(shape, first, second, fit)| {
        let mut answer = NO_ANSWER;
        (nd_slices_intersect(shape, &raw(first), &raw(second), *fit, &mut answer), answer)
    });
}

#[test]
fn picked() {
    let arguments = |numbers: &mut Numbers| {
        let shape = shape(numbers);
        let elems = elems(numbers, &shape);
        (shape, elems, choice(numbers))
    };
    compare!("nd_picked", STATUSES, arguments, |(shape, elems, fit)| {
        let mut count = UNWRITTEN;
        (nd_picked(shape, &raw(elems), *fit, &mut count), count)
    });
}

#[test]
fn first_intersection() {
    let arguments = |numbers: &mut Numbers| {
        let shape = shape(numbers);
        let slices: Vec<_> = (0..numbers.below(7)).map(|_| elems(numbers, &shape)).collect();
        let mut counts: Vec<usize> = slices.iter().map(Vec::len).collect();
        match numbers.below(40) {
            0 => counts.push(numbers.extreme_len()),
            1 => drop(counts.pop()),
            2 if !counts.is_empty() => counts[0] = numbers.extreme_len(),
            3 if counts.len() > 1 => counts.swap(0, 1),
            _ => {}
        }
        let room = room(numbers, 2);
        (shape, slices.into_iter().flatten().collect::<Vec<_>>(), counts, choice(numbers), room)
    };
    compare!("nd_first_intersection", STATUSES, arguments, |(shape, elems, counts, fit, room)| {
        let (mut pair, mut found) = (room.clone(), NO_ANSWER);
        let status = nd_first_intersection(shape, &raw(elems), counts, *fit, &mut pair, &mut found);
        (status, (pair, found))
    });
}
