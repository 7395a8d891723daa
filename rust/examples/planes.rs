//! A picture of 640x480 pixels that have red, green and blue side by side: each of the three planes is written by a thread of its
//! own, by the coordinates of the picture, and there is no `unsafe`.
//!
//! The cost: a plane is a pointer and a view, whatever its strides are, so to lend three takes a list of three and no time that
//! depends on the picture. `fill` and `map_in_place` go line by line, as fast as a loop by hand.

use ndarray_layout::{ArrayViewMut, Ix2, LayoutError, s};
use std::thread;
use std::time::Instant;

const ROWS: usize = 480;
const COLUMNS: usize = 640;

/// Paints a plane from 0 at its first row to 255 at its last one.
fn paint_downwards(plane: ArrayViewMut<'_, u8, Ix2>) {
    for (row, mut pixels) in plane.into_rows().enumerate() {
        pixels.fill((row * 255 / (ROWS - 1)) as u8);
    }
}

/// Paints a plane from 0 at its first column to 255 at its last one.
fn paint_across(mut plane: ArrayViewMut<'_, u8, Ix2>) {
    for ((_, column), pixel) in plane.indexed_iter_mut() {
        *pixel = (column * 255 / (COLUMNS - 1)) as u8;
    }
}

fn main() -> Result<(), LayoutError> {
    let mut items = vec![0; ROWS * COLUMNS * 3];
    let mut picture = ArrayViewMut::from_shape((ROWS, COLUMNS, 3), &mut items)?;

    let start = Instant::now();
    let (red, green, mut blue) = picture.multi_slice_mut((s![.., .., 0], s![.., .., 1], s![.., .., 2]))?;
    let lent = start.elapsed();
    thread::scope(|scope| {
        scope.spawn(|| paint_downwards(red));
        scope.spawn(|| paint_across(green));
        scope.spawn(|| blue.fill(128));
    });
    println!("lent in {lent:?}, painted after {:?}", start.elapsed());

    // the first row and the first column share a pixel
    let error = picture.multi_slice_mut((s![0, .., ..], s![.., 0, ..])).err();
    assert!(error.is_some());
    assert_eq!(picture.slice(s![0, 0, ..])?.to_vec()?, [0, 0, 128]);
    assert_eq!(picture.slice(s![-1, -1, ..])?.to_vec()?, [255, 255, 128]);
    Ok(())
}
