//! Indices, and where they lie, rows of them, and whether their places follow one another.

use crate::arguments::index;
use crate::compare::*;
use crate::model::layouts;
use crate::numbers::Numbers;

#[test]
fn place() {
    let arguments = |numbers: &mut Numbers| {
        let view = view(numbers);
        let index = index(numbers, &view.shape);
        (view.start, view.shape, kept(&view.strides), index)
    };
    let statuses = [OK, INCOMPATIBLE_LAYOUT, OUT_OF_BOUNDS, OVERFLOW];
    compare!("nd_place", statuses, arguments, |(start, shape, strides, index)| {
        let mut place = UNWRITTEN;
        (nd_place(*start, shape, strides, index, &mut place), place)
    });
}

#[test]
fn next_index() {
    let arguments = |numbers: &mut Numbers| {
        let shape = shape(numbers);
        let mut index = index(numbers, &shape);
        if numbers.once_in(4) && index.len() == shape.len() {
            index = shape.iter().map(|len| len.saturating_sub(1)).collect();
        }
        (shape, index, choice(numbers))
    };
    compare!("nd_next_index", [OK, OUT_OF_BOUNDS, BAD_ARGUMENT], arguments, |(shape, index, order)| {
        let (mut next, mut has_next) = (index.clone(), NO_ANSWER);
        (nd_next_index(shape, &mut next, *order, &mut has_next), (next, has_next))
    });
}

#[test]
fn places() {
    let arguments = |numbers: &mut Numbers| {
        let view = view(numbers);
        let room = room(numbers, layouts::size(&view.shape).min(1_000) as usize);
        (view.start, view.shape, kept(&view.strides), choice(numbers), room)
    };
    let statuses = [OK, INCOMPATIBLE_LAYOUT, OUT_OF_BOUNDS, OVERFLOW, BAD_ARGUMENT];
    compare!("nd_places", statuses, arguments, |(start, shape, strides, order, room)| {
        let mut places = room.clone();
        (nd_places(*start, shape, strides, *order, &mut places), places)
    });
}

/// How many rows a shape has in an order.
fn count_of_rows(shape: &[usize], order: i32) -> usize {
    let slower = match shape {
        [] => shape,
        [slower @ .., _] if order == 0 => slower,
        [_, slower @ ..] => slower,
    };
    if shape.contains(&0) { 0 } else { layouts::size(slower).min(1_000) as usize }
}

#[test]
fn rows() {
    let arguments = |numbers: &mut Numbers| {
        let (view, order) = (view(numbers), choice(numbers));
        let room = room(numbers, count_of_rows(&view.shape, order));
        (view.start, view.shape, kept(&view.strides), order, room)
    };
    let statuses = [OK, INCOMPATIBLE_LAYOUT, OUT_OF_BOUNDS, OVERFLOW, BAD_ARGUMENT];
    compare!("nd_rows", statuses, arguments, |(start, shape, strides, order, room)| {
        let (mut starts, mut stride, mut len) = (room.clone(), UNWRITTEN as isize, UNWRITTEN);
        let status = nd_rows(*start, shape, strides, *order, &mut starts, &mut stride, &mut len);
        (status, (starts, stride, len))
    });
}

/// The strides of so many layouts of a shape, one after another: most often such as lie without gaps, or by far ones.
fn strides_of_layouts(numbers: &mut Numbers, shape: &[usize], layouts: usize) -> Vec<usize> {
    let mut strides = Vec::new();
    for _ in 0..layouts {
        let (mut own, mut step) = (vec![0; shape.len()], 1usize);
        for (stride, len) in own.iter_mut().zip(shape).rev() {
            *stride = if numbers.once_in(40) { numbers.pick(&[1, 2, 3, 1 << 62]) } else { step };
            step = step.wrapping_mul(*len + usize::from(numbers.once_in(4)));
        }
        strides.extend(own);
    }
    if numbers.once_in(20) {
        strides.pop();
    }
    strides
}

#[test]
fn joined_in_all() {
    let arguments = |numbers: &mut Numbers| {
        let shape: Vec<usize> = (0..numbers.below(6)).map(|_| numbers.pick(&[0, 1, 1, 2, 2, 3, 4, 5])).collect();
        let layouts = numbers.pick(&[0, 1, 1, 2, 2, 3, 8]);
        let strides = strides_of_layouts(numbers, &shape, layouts);
        (shape, strides, choice(numbers), layouts)
    };
    let statuses = [OK, INCOMPATIBLE_LAYOUT, OVERFLOW, BAD_ARGUMENT];
    compare!("nd_joined_in_all", statuses, arguments, |(shape, strides, order, layouts)| {
        let (mut joined, mut count, mut len) = (vec![UNWRITTEN; *layouts], UNWRITTEN, UNWRITTEN);
        let status = nd_joined_in_all(shape, strides, *order, &mut joined, &mut count, &mut len);
        (status, (joined, count, len))
    });
}

#[test]
fn stretch() {
    let arguments = |numbers: &mut Numbers| {
        let view = view(numbers);
        let mut strides = kept(&view.strides);
        if numbers.once_in(2) && strides.len() == view.shape.len() {
            let mut step = 1usize;
            for (stride, len) in strides.iter_mut().zip(&view.shape).rev() {
                *stride = step;
                step = step.wrapping_mul(*len);
            }
        }
        (view.start, view.shape, strides, choice(numbers))
    };
    let statuses = [OK, INCOMPATIBLE_LAYOUT, OUT_OF_BOUNDS, OVERFLOW, BAD_ARGUMENT];
    compare!("nd_stretch", statuses, arguments, |(start, shape, strides, order)| {
        let (mut first, mut end, mut found) = (UNWRITTEN, UNWRITTEN, NO_ANSWER);
        let status = nd_stretch(*start, shape, strides, *order, &mut first, &mut end, &mut found);
        (status, (first, end, found))
    });
}
