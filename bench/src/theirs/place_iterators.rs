//! Loops over the places of a view, without a list of them.
use super::*;

/// Nested loops over the strides, as they are written by hand.
#[inline(always)]
fn by_hand<D: Dimension>(view: &View<D>, mut each: impl FnMut(usize)) {
    let (lens, strides) = (view.dim.slice(), view.strides.slice());
    let (rows, columns) = (lens[0], lens[1]);
    let (row_stride, column_stride) = (strides[0] as isize, strides[1] as isize);
    let mut row = view.start as isize;
    for _ in 0..rows {
        let mut place = row;
        for _ in 0..columns {
            each(place as usize);
            place += column_stride;
        }
        row += row_stride;
    }
}

/// The layer's `next_for` and `stride_offset`.
#[inline(always)]
fn by_next<D: Dimension>(view: &View<D>, mut each: impl FnMut(usize)) {
    let mut next = view.dim.first_index();
    while let Some(index) = next {
        each((view.start as isize + D::stride_offset(&index, &view.strides)) as usize);
        next = view.dim.next_for(index);
    }
}

#[inline(never)]
fn mixed<D: Dimension>(hand: bool, view: &View<D>, before: usize) -> usize {
    let mut sum = before;
    let mix = |place: usize| sum = sum.rotate_left(1) ^ place;
    if hand { by_hand(view, mix) } else { by_next(view, mix) }
    sum
}

#[inline(never)]
fn read<D: Dimension>(hand: bool, view: &View<D>, data: &[u8], before: usize) -> usize {
    let mut sum = before;
    let add = |place: usize| sum = sum.wrapping_add(data.get(place).copied().unwrap_or(0) as usize);
    if hand { by_hand(view, add) } else { by_next(view, add) }
    sum
}

fn run<D: Dimension>(way: PlacesWay, [dim, strides]: [&[usize]; 2], data: &[u8], passes: usize) -> usize {
    let view = View { start: 0, dim: dimension::<D>(dim), strides: dimension(strides) };
    let mut sum = 0usize;
    for _ in 0..passes {
        sum = if way.reads { read(way.hand, &view, data, sum) } else { mixed(way.hand, &view, sum) };
    }
    sum
}

/// How the places of a view are gone over: whether by nested loops, whether the bytes there are read, and the dimension type.
#[derive(Clone, Copy)]
pub struct PlacesWay {
    pub hand: bool,
    pub reads: bool,
    pub kind: usize,
}

pub fn iter_places(way: PlacesWay, lists: [&[usize]; 2], data: &[u8], passes: usize) -> usize {
    if way.kind == 2 { run::<Ix2>(way, lists, data, passes) } else { run::<IxDyn>(way, lists, data, passes) }
}
