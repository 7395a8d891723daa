//! Parts beside what they can't cost less than: threads with raw pointers, the comparison of slices, reads, a loop.

use super::timing::{Row, row};
use super::{PICTURE, SIDE, TILE};
use ndarray_layout::{ArrayViewMut, Fit, Ix2, Ix3, SliceInfoElem, s};
use std::hint::black_box;
use std::thread;

/// How many rows and columns a picture has whose planes are written by threads.
const BIG: usize = 2000;

/// The first item of a plane, which one thread alone writes.
struct Plane(*mut u8);

unsafe impl Send for Plane {}

#[inline(never)]
fn fill_plane(plane: Plane, colour: u8) {
    for pixel in 0..BIG * BIG {
        // SAFETY: each plane has so many pixels of three items
        unsafe { *plane.0.add(3 * pixel) = colour };
    }
}

#[inline(never)]
fn planes_by_pointers(items: &mut [u8]) {
    assert_eq!(items.len(), BIG * BIG * 3);
    let first = items.as_mut_ptr();
    thread::scope(|scope| {
        for colour in 0..3_u8 {
            // SAFETY: there are three items
            let plane = Plane(unsafe { first.add(usize::from(colour)) });
            scope.spawn(move || fill_plane(plane, colour + 1));
        }
    });
}

#[inline(never)]
fn planes_by_parts(items: &mut [u8]) {
    let mut picture = ArrayViewMut::from_shape(Ix3(BIG, BIG, 3), items).expect("a picture");
    let planes = picture.multi_slice_mut([0, 1, 2].map(|colour| s![.., .., colour])).expect("planes apart");
    thread::scope(|scope| {
        for (mut plane, colour) in planes.into_iter().zip(1..) {
            scope.spawn(move || plane.fill(colour));
        }
    });
}

/// A call of both sides on a list of so many items; the sum of a few of them afterwards.
fn writing<T: From<u8> + Into<u64> + Copy + 'static>(
    (name, count, items): (&str, usize, usize),
    theirs: impl Fn(&mut [T]) + 'static,
    ours: impl Fn(&mut [T]) + 'static,
) -> Row {
    fn side<T: From<u8> + Into<u64> + Copy + 'static>(
        items: usize,
        call: impl Fn(&mut [T]) + 'static,
    ) -> impl Fn(usize) -> usize + 'static {
        move |passes| {
            let mut list = vec![T::from(0); items];
            (0..passes).for_each(|_| call(black_box(&mut list)));
            list.iter().step_by(items / 97).map(|item| (*item).into() as usize).sum()
        }
    }
    row(name, count, side(items, theirs), side(items, ours))
}

fn tiles() -> Vec<[SliceInfoElem; 2]> {
    let starts = || (0..PICTURE).step_by(TILE);
    let slice = |row: usize, column: usize| *s![row..row + TILE, column..column + TILE];
    starts().flat_map(|row| starts().map(move |column| slice(row, column))).collect()
}

fn picture(items: &mut [u8]) -> ArrayViewMut<'_, u8, Ix2> {
    ArrayViewMut::from_shape(Ix2(PICTURE, PICTURE), items).expect("a picture")
}

#[inline(never)]
fn compare_tiles(items: &mut [u8], slices: &[[SliceInfoElem; 2]]) {
    let found = picture(items).strided().first_intersection(slices, Fit::Strict).expect("slices that fit");
    assert!(black_box(found).is_none());
}

#[inline(never)]
fn lend_tiles(items: &mut [u8], slices: &[[SliceInfoElem; 2]]) {
    black_box(picture(items).multi_slice_move::<_, Ix2>(slices).expect("tiles apart"));
}

fn table(items: &mut [u32]) -> ArrayViewMut<'_, u32, Ix2> {
    ArrayViewMut::from_shape(Ix2(SIDE, SIDE), items).expect("a table")
}

/// Indices that lie here and there.
fn indices() -> Vec<(usize, usize)> {
    (0..10_000).map(|number| (number * 7919 % SIDE, number * 104_729 % SIDE)).collect()
}

#[inline(never)]
fn read(items: &mut [u32], indices: &[(usize, usize)]) {
    let part = table(items);
    black_box(indices.iter().filter_map(|index| part.get(index)).fold(0, |sum: u32, item| sum.wrapping_add(*item)));
}

#[inline(never)]
fn read_to_write(items: &mut [u32], indices: &[(usize, usize)]) {
    let mut part = table(items);
    let mut sum = 0_u32;
    for index in indices {
        if let Some(item) = part.get_mut(index) {
            sum = sum.wrapping_add(*item);
        }
    }
    black_box(sum);
}

pub fn rows() -> Vec<Row> {
    let planes = ("three planes of 2000x2000 by threads beside raw pointers", BIG * BIG * 3, BIG * BIG * 3);
    let lent = ("100 tiles lent beside their comparison, multi_slice_move", 1, PICTURE * PICTURE);
    let found = ("get_mut of a part beside get", 10_000, SIDE * SIDE);
    let (slices, places) = (tiles(), indices());
    let (theirs, read_places) = (slices.clone(), places.clone());
    vec![
        writing(planes, planes_by_pointers, planes_by_parts),
        writing(lent, move |items| compare_tiles(items, &theirs), move |items| lend_tiles(items, &slices)),
        writing(found, move |items| read(items, &read_places), move |items| read_to_write(items, &places)),
    ]
}
