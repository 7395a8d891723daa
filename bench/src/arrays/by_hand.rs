//! Loops over slices by hand, which check nothing but what Rust checks.

use super::{PICTURE, SIDE, TILE};

pub fn wrapping(sum: u32, item: &u32) -> u32 {
    sum.wrapping_add(*item)
}

/// The means of each item and its eight neighbours, but of those at the border; the sum over them.
#[inline(never)]
pub fn blur(items: &[u32]) -> usize {
    let mut sum = 0u32;
    for i in 0..SIDE - 2 {
        for j in 0..SIDE - 2 {
            let three = |row: usize| items[row * SIDE + j..][..3].iter().fold(0, wrapping);
            sum = sum.wrapping_add(three(i).wrapping_add(three(i + 1)).wrapping_add(three(i + 2)) / 9);
        }
    }
    sum as usize
}

/// The first items of the rows of tiles, and the first of their columns.
fn corners() -> impl Iterator<Item = (usize, usize)> {
    (0..PICTURE).step_by(TILE).flat_map(|row| (0..PICTURE).step_by(TILE).map(move |column| (row, column)))
}

#[inline(never)]
pub fn fill_tiles(picture: &mut [u8]) {
    for (number, (row, column)) in corners().enumerate() {
        (row..row + TILE).for_each(|row| picture[row * PICTURE + column..][..TILE].fill(number as u8));
    }
}

#[inline(never)]
pub fn lend_tiles(picture: &mut [u8]) {
    let across = PICTURE / TILE;
    let mut tiles: Vec<Vec<&mut [u8]>> = (0..across * across).map(|_| Vec::with_capacity(TILE)).collect();
    for (row, items) in picture[..PICTURE * PICTURE].chunks_mut(PICTURE).enumerate() {
        items.chunks_mut(TILE).enumerate().for_each(|(column, items)| tiles[row / TILE * across + column].push(items));
    }
    for (number, tile) in std::hint::black_box(tiles).into_iter().enumerate() {
        tile.into_iter().for_each(|row| row.fill(number as u8));
    }
}

#[inline(never)]
pub fn fill_planes(picture: &mut [u8]) {
    for pixel in picture.chunks_exact_mut(3) {
        pixel.copy_from_slice(&[1, 2, 3]);
    }
}

#[inline(never)]
pub fn lend_planes(picture: &mut [u8]) {
    let mut planes: [Vec<&mut u8>; 3] = std::array::from_fn(|_| Vec::with_capacity(PICTURE * PICTURE));
    for pixel in picture.chunks_exact_mut(3) {
        pixel.iter_mut().zip(&mut planes).for_each(|(item, plane)| plane.push(item));
    }
    for (plane, colour) in std::hint::black_box(planes).into_iter().zip(1..) {
        plane.into_iter().for_each(|item| *item = colour);
    }
}
