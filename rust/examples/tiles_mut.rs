//! A picture that is cut into tiles, which threads write at once, with no `unsafe`.

use ndarray_layout::{ArrayViewMut, LayoutError, ShapeBuilder, s};
use std::thread;

/// How many rows and columns a tile has; the last ones of a row or a column may have fewer.
const TILE: usize = 3;

/// The ranges of a length, of so many coordinates each.
fn ranges(len: usize) -> impl Iterator<Item = std::ops::Range<usize>> {
    (0..len).step_by(TILE).map(move |start| start..len.min(start + TILE))
}

fn main() -> Result<(), LayoutError> {
    // 4 rows of 7 pixels, each of which takes the room of 8
    let mut pixels = vec![0; 32];
    let mut picture = ArrayViewMut::from_shape((4, 7).strides((8, 1))?, &mut pixels)?;

    let slices: Vec<_> = ranges(4).flat_map(|rows| ranges(7).map(move |columns| s![rows.clone(), columns])).collect();
    thread::scope(|scope| {
        for (mut tile, number) in picture.multi_slice_mut(slices)?.into_iter().zip(1..) {
            scope.spawn(move || tile.fill(number));
        }
        Ok::<(), LayoutError>(())
    })?;
    println!("{picture}");
    let expected = [
        1, 1, 1, 2, 2, 2, 3, 0, //
        1, 1, 1, 2, 2, 2, 3, 0, //
        1, 1, 1, 2, 2, 2, 3, 0, //
        4, 4, 4, 5, 5, 5, 6, 0,
    ];
    assert_eq!(pixels, expected);
    Ok(())
}
