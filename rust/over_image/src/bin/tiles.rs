//! A picture of `image` that is cut into tiles, and then into rows, which threads of `rayon` write at once, with no `unsafe`.

use image::GrayImage;
use ndarray_layout::{ArrayViewMut, Ix2, LayoutError, s};
use rayon::prelude::*;

/// How many rows and columns a tile has; the last ones of a row or a column may have fewer.
const TILE: usize = 16;

/// The ranges of a length, of so many coordinates each.
fn ranges(len: usize) -> impl Iterator<Item = std::ops::Range<usize>> {
    (0..len).step_by(TILE).map(move |start| start..len.min(start + TILE))
}

/// Paints a tile with its brightest pixel.
fn flatten(mut tile: ArrayViewMut<'_, u8, Ix2>) {
    let brightest = tile.iter().copied().max().unwrap_or(0);
    tile.fill(brightest);
}

fn main() -> Result<(), LayoutError> {
    let mut picture = GrayImage::from_fn(50, 40, |column, row| image::Luma([(row * 3 + column) as u8]));
    let (rows, columns) = (picture.height() as usize, picture.width() as usize);
    let mut view = ArrayViewMut::from_shape((rows, columns), &mut picture)?;

    let slices: Vec<_> =
        ranges(rows).flat_map(|rows| ranges(columns).map(move |columns| s![rows.clone(), columns])).collect();
    let tiles = view.multi_slice_mut(slices)?;
    println!("{} tiles", tiles.len());
    tiles.into_par_iter().for_each(flatten);

    let bands: Vec<_> = view.rows_mut().collect();
    bands.into_par_iter().enumerate().for_each(|(row, mut band)| {
        if row % TILE == 0 {
            band.fill(0);
        }
    });
    for row in [0, 1, 39] {
        println!("{:?}", picture.rows().nth(row).map(|row| row.step_by(7).map(|pixel| pixel.0[0]).collect::<Vec<_>>()));
    }
    Ok(())
}
