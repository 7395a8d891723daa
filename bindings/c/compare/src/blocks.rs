//! Windows and chunks of a layout, its two parts, and its diagonal.

use crate::arguments::axis;
use crate::compare::*;
use crate::numbers::Numbers;

/// A block of a shape, seldom not one of a length for each axis.
pub fn block(numbers: &mut Numbers, shape: &[usize]) -> Vec<usize> {
    let mut block: Vec<usize> = shape.iter().map(|len| 1 + numbers.below((*len).clamp(1, 1 << 40))).collect();
    match numbers.below(20) {
        0 => block.push(1),
        1 => drop(block.pop()),
        2 if !block.is_empty() => block[0] = numbers.extreme_len(),
        3 if !block.is_empty() => block[0] = shape[0].saturating_add(1),
        _ => {}
    }
    block
}

/// A layout, a block of it, and rooms for twice as many axes.
#[allow(clippy::type_complexity)]
fn layout_and_block(numbers: &mut Numbers) -> (Vec<usize>, Vec<usize>, Vec<usize>, Vec<usize>, Vec<usize>) {
    let (shape, strides) = layout(numbers);
    let block = block(numbers, &shape);
    let (new_shape, new_strides) = (room(numbers, 2 * shape.len()), room(numbers, 2 * shape.len()));
    (shape, kept(&strides), block, new_shape, new_strides)
}

/// The blocks of a layout.
macro_rules! compare_blocks {
    ($call:literal, $blocks:ident) => {
        let statuses = [OK, INCOMPATIBLE_SHAPE, INCOMPATIBLE_LAYOUT, UNSUPPORTED, OVERFLOW, BAD_ARGUMENT];
        compare!($call, statuses, layout_and_block, |(shape, strides, block, shape_room, strides_room)| {
            let (mut new_shape, mut new_strides) = (shape_room.clone(), strides_room.clone());
            let status = $blocks(shape, strides, block, &mut new_shape, &mut new_strides);
            (status, (new_shape, new_strides))
        })
    };
}

#[test]
fn windows() {
    compare_blocks!("nd_windows", nd_windows);
}

#[test]
fn exact_chunks() {
    compare_blocks!("nd_exact_chunks", nd_exact_chunks);
}

#[test]
fn split_at() {
    let arguments = |numbers: &mut Numbers| {
        let view = view(numbers);
        let axis = axis(numbers, &view.shape);
        let len = view.shape.get(axis).copied().unwrap_or(0);
        let index = if numbers.once_in(20) { numbers.extreme_len() } else { numbers.below(len.min(1 << 40) + 2) };
        let rooms = (room(numbers, 2), room(numbers, 2 * view.shape.len()), room(numbers, view.shape.len()));
        (view.start, view.shape, kept(&view.strides), (axis, index), rooms)
    };
    let statuses = [OK, INCOMPATIBLE_LAYOUT, OUT_OF_BOUNDS, OVERFLOW, BAD_ARGUMENT];
    compare!("nd_split_at", statuses, arguments, |(start, shape, strides, (axis, index), rooms)| {
        let (mut starts, mut shapes, mut new_strides) = rooms.clone();
        let status = nd_split_at(*start, shape, strides, *axis, *index, &mut starts, &mut shapes, &mut new_strides);
        (status, (starts, shapes, new_strides))
    });
}

#[test]
fn diag() {
    let arguments = |numbers: &mut Numbers| {
        let (shape, strides) = layout(numbers);
        (shape, kept(&strides))
    };
    compare!("nd_diag", [OK, INCOMPATIBLE_LAYOUT, OVERFLOW], arguments, |(shape, strides)| {
        let (mut len, mut stride) = (UNWRITTEN, UNWRITTEN as isize);
        (nd_diag(shape, strides, &mut len, &mut stride), (len, stride))
    });
}
