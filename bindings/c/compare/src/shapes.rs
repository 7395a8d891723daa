//! Shapes in common, axes merged, and layouts along other shapes.

use crate::arguments::{axes, axis, other_shape, target};
use crate::compare::*;
use crate::numbers::Numbers;

#[test]
fn co_broadcast() {
    let arguments = |numbers: &mut Numbers| {
        let first = shape(numbers);
        let mut second = target(numbers, &first);
        for len in &mut second {
            if numbers.once_in(4) {
                *len = 1;
            }
        }
        let room = room(numbers, first.len().max(second.len()));
        if numbers.once_in(2) { (second, first, room) } else { (first, second, room) }
    };
    compare!("nd_co_broadcast", [OK, INCOMPATIBLE_SHAPE, BAD_ARGUMENT], arguments, |(first, second, room)| {
        let mut common = room.clone();
        (nd_co_broadcast(first, second, &mut common), common)
    });
}

#[test]
fn broadcast() {
    let arguments = |numbers: &mut Numbers| {
        let (shape, strides) = layout(numbers);
        let target = target(numbers, &shape);
        let room = room(numbers, target.len());
        (shape, kept(&strides), target, room)
    };
    let statuses = [OK, INCOMPATIBLE_SHAPE, INCOMPATIBLE_LAYOUT, OVERFLOW, BAD_ARGUMENT];
    compare!("nd_broadcast", statuses, arguments, |(shape, strides, target, room)| {
        let mut new_strides = room.clone();
        (nd_broadcast(shape, strides, target, &mut new_strides), new_strides)
    });
}

#[test]
fn merge_axes() {
    let arguments = |numbers: &mut Numbers| {
        let (shape, strides) = layout(numbers);
        let (take, into) = (axis(numbers, &shape), axis(numbers, &shape));
        (shape, kept(&strides), take, into)
    };
    let statuses = [OK, INCOMPATIBLE_LAYOUT, OUT_OF_BOUNDS, UNSUPPORTED, OVERFLOW];
    compare!("nd_merge_axes", statuses, arguments, |(shape, strides, take, into)| {
        let (mut shape, mut strides, mut merged) = (shape.clone(), strides.clone(), NO_ANSWER);
        let status = nd_merge_axes(&mut shape, &mut strides, *take, *into, &mut merged);
        (status, (shape, strides, merged))
    });
}

#[test]
fn reshape() {
    let arguments = |numbers: &mut Numbers| {
        let (shape, strides) = layout(numbers);
        let new_shape = other_shape(numbers, &shape);
        let room = room(numbers, new_shape.len());
        (shape, kept(&strides), choice(numbers), new_shape, room)
    };
    let statuses = [OK, INCOMPATIBLE_SHAPE, INCOMPATIBLE_LAYOUT, OVERFLOW, BAD_ARGUMENT];
    compare!("nd_reshape", statuses, arguments, |(shape, strides, order, new_shape, room)| {
        let mut new_strides = room.clone();
        (nd_reshape(shape, strides, new_shape, *order, &mut new_strides), new_strides)
    });
}

#[test]
fn permuted_axes() {
    let arguments = |numbers: &mut Numbers| {
        let (shape, strides) = layout(numbers);
        let axes = axes(numbers, &shape);
        let (new_shape, new_strides) = (room(numbers, shape.len()), room(numbers, shape.len()));
        (shape, kept(&strides), axes, new_shape, new_strides)
    };
    let statuses = [OK, INCOMPATIBLE_SHAPE, INCOMPATIBLE_LAYOUT, OVERFLOW, BAD_ARGUMENT];
    compare!("nd_permuted_axes", statuses, arguments, |(shape, strides, axes, shape_room, strides_room)| {
        let (mut new_shape, mut new_strides) = (shape_room.clone(), strides_room.clone());
        let status = nd_permuted_axes(shape, strides, axes, &mut new_shape, &mut new_strides);
        (status, (new_shape, new_strides))
    });
}
