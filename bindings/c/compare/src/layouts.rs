//! Layouts: which are accepted, and what they are like.

use crate::arguments::buffer_len;
use crate::compare::*;
use crate::numbers::Numbers;

#[test]
fn layout_start() {
    let arguments = |numbers: &mut Numbers| {
        let (shape, strides) = layout(numbers);
        let elem_size = numbers.pick(&[0, 1, 1, 2, 4, 8, 1 << 40, usize::MAX]);
        let len = buffer_len(numbers, &shape, &strides);
        (shape, kept(&strides), elem_size, len, choice(numbers))
    };
    let statuses = [OK, INCOMPATIBLE_LAYOUT, OUT_OF_BOUNDS, UNSUPPORTED, OVERFLOW, BAD_ARGUMENT];
    compare!("nd_layout_start", statuses, arguments, |(shape, strides, elem_size, len, mode)| {
        let mut start = UNWRITTEN;
        (nd_layout_start(shape, strides, *elem_size, *len, *mode, &mut start), start)
    });
}

#[test]
fn check_layout() {
    let arguments = |numbers: &mut Numbers| {
        let view = view(numbers);
        let elem_size = numbers.pick(&[1, 1, 2, 8, 1 << 62]);
        let len = buffer_len(numbers, &view.shape, &view.strides).saturating_add(numbers.below(20));
        (view.start, view.shape, kept(&view.strides), elem_size, len, choice(numbers))
    };
    let statuses = [OK, INCOMPATIBLE_LAYOUT, OUT_OF_BOUNDS, UNSUPPORTED, OVERFLOW, BAD_ARGUMENT];
    compare!("nd_check_layout", statuses, arguments, |(start, shape, strides, elem_size, len, mode)| {
        (nd_check_layout(*start, shape, strides, *elem_size, *len, *mode), ())
    });
}

fn kept_layout(numbers: &mut Numbers) -> (Vec<usize>, Vec<usize>) {
    let (shape, strides) = layout(numbers);
    (shape, kept(&strides))
}

/// A question about a layout.
macro_rules! compare_answer {
    ($call:literal, $asked:ident) => {
        compare!($call, [OK, INCOMPATIBLE_LAYOUT, OVERFLOW], kept_layout, |(shape, strides)| {
            let mut answer = NO_ANSWER;
            ($asked(shape, strides, &mut answer), answer)
        })
    };
}

#[test]
fn has_overlap() {
    compare_answer!("nd_has_overlap", nd_has_overlap);
}

#[test]
fn is_contiguous() {
    compare_answer!("nd_is_contiguous", nd_is_contiguous);
}

#[test]
fn is_layout_c() {
    compare_answer!("nd_is_layout_c", nd_is_layout_c);
}

#[test]
fn is_layout_f() {
    compare_answer!("nd_is_layout_f", nd_is_layout_f);
}

fn shape_and_room(numbers: &mut Numbers) -> (Vec<usize>, Vec<usize>) {
    let shape = shape(numbers);
    let room = room(numbers, shape.len());
    (shape, room)
}

#[test]
fn default_strides() {
    compare!("nd_default_strides", [OK, OVERFLOW, BAD_ARGUMENT], shape_and_room, |(shape, room)| {
        let mut strides = room.clone();
        (nd_default_strides(shape, &mut strides), strides)
    });
}

#[test]
fn fortran_strides() {
    compare!("nd_fortran_strides", [OK, OVERFLOW, BAD_ARGUMENT], shape_and_room, |(shape, room)| {
        let mut strides = room.clone();
        (nd_fortran_strides(shape, &mut strides), strides)
    });
}
