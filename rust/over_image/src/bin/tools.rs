//! Tools over a picture of `image`: a crop, flips, half the size, a blur, and planes and tiles in threads, with no `unsafe`. Each stands beside
//! loops over places that give the same samples.

use image::{Rgb, RgbImage};
use ndarray_layout::prelude::*;
use ndarray_layout::{ArrayView3, ArrayViewMut2};
use std::thread;

/// The samples that a tool makes of a picture.
type Made = Result<Vec<u8>, LayoutError>;

/// The rows and the columns of a picture.
fn size(picture: &RgbImage) -> (usize, usize) {
    (picture.height() as usize, picture.width() as usize)
}

fn view(picture: &RgbImage) -> Result<ArrayView3<'_, u8>, LayoutError> {
    let (rows, columns) = size(picture);
    ArrayView::from_shape((rows, columns, 3), picture)
}

/// The samples of loops over places, in row-major order.
fn by_places(rows: usize, columns: usize, sample: impl Fn(usize, usize, usize) -> u8) -> Made {
    let mut samples = Vec::with_capacity(rows * columns * 3);
    for row in 0..rows {
        for column in 0..columns {
            for channel in 0..3 {
                samples.push(sample(row, column, channel));
            }
        }
    }
    Ok(samples)
}

fn crop(picture: &RgbImage) -> Made {
    let (rows, columns) = size(picture);
    Ok(view(picture)?.slice(s![rows / 4..rows / 2, columns / 3..columns - 5, ..])?.to_vec()?)
}

fn crop_by_hand(picture: &RgbImage) -> Made {
    let ((rows, columns), samples) = (size(picture), picture.as_raw());
    by_places(rows / 2 - rows / 4, columns - 5 - columns / 3, |row, column, channel| {
        samples[((row + rows / 4) * columns + column + columns / 3) * 3 + channel]
    })
}

fn upside_down(picture: &RgbImage) -> Made {
    Ok(view(picture)?.slice(s![..;-1, .., ..])?.to_vec()?)
}

fn upside_down_by_hand(picture: &RgbImage) -> Made {
    let ((rows, columns), samples) = (size(picture), picture.as_raw());
    by_places(rows, columns, |row, column, channel| samples[((rows - 1 - row) * columns + column) * 3 + channel])
}

fn mirrored(picture: &RgbImage) -> Made {
    Ok(view(picture)?.slice(s![.., ..;-1, ..])?.to_vec()?)
}

fn mirrored_by_hand(picture: &RgbImage) -> Made {
    let ((rows, columns), samples) = (size(picture), picture.as_raw());
    by_places(rows, columns, |row, column, channel| samples[(row * columns + columns - 1 - column) * 3 + channel])
}

/// Half the size: the mean of each two by two pixels, of which those above one another are added first.
fn half(picture: &RgbImage) -> Made {
    let (rows, columns) = size(picture);
    let (view, last, right) = (view(picture)?, rows - rows % 2, columns - columns % 2);
    let mut sums = view.slice(s![..last;2, .., ..])?.map(|sample| u16::from(*sample))?;
    sums.zip_mut_with(&view.slice(s![1..last;2, .., ..])?, |sum, below| *sum += u16::from(*below))?;
    let mut halves = sums.sliced(s![.., ..right;2, ..])?.to_owned();
    halves.zip_mut_with(&sums.sliced(s![.., 1..right;2, ..])?, |sum, beside| *sum += beside)?;
    Ok(halves.map(|sum| (sum / 4) as u8)?.into_stored())
}

fn half_by_hand(picture: &RgbImage) -> Made {
    let ((rows, columns), samples) = (size(picture), picture.as_raw());
    by_places(rows / 2, columns / 2, |row, column, channel| {
        let sample = |down, right| u16::from(samples[((2 * row + down) * columns + 2 * column + right) * 3 + channel]);
        ((sample(0, 0) + sample(0, 1) + sample(1, 0) + sample(1, 1)) / 4) as u8
    })
}

/// The mean of each pixel and its eight neighbours; the border has none.
fn blur(picture: &RgbImage) -> Made {
    let (rows, columns) = size(picture);
    let mut sums = OwnedArray::from_elem((rows - 2, columns - 2, 3), 0_u16);
    for (row, column) in (0..9).map(|number| (number / 3, number % 3)) {
        let moved = view(picture)?.slice(s![row..rows - 2 + row, column..columns - 2 + column, ..])?;
        sums.zip_mut_with(&moved, |sum, sample| *sum += u16::from(*sample))?;
    }
    Ok(sums.map(|sum| (sum / 9) as u8)?.into_stored())
}

fn blur_by_hand(picture: &RgbImage) -> Made {
    let ((rows, columns), samples) = (size(picture), picture.as_raw());
    by_places(rows - 2, columns - 2, |row, column, channel| {
        let mut sum = 0;
        for down in 0..3 {
            for right in 0..3 {
                sum += u16::from(samples[((row + down) * columns + column + right) * 3 + channel]);
            }
        }
        (sum / 9) as u8
    })
}

/// Each channel darker by a factor of its own, in a thread of its own.
fn planes(picture: &RgbImage) -> Made {
    let mut samples = view(picture)?.to_owned();
    let (red, green, blue) = samples.multi_slice_mut((s![.., .., 0], s![.., .., 1], s![.., .., 2]))?;
    thread::scope(|scope| {
        for (mut plane, factor) in [red, green, blue].into_iter().zip(1..) {
            scope.spawn(move || plane.map_in_place(|sample| *sample /= factor));
        }
    });
    Ok(samples.into_stored())
}

fn planes_by_hand(picture: &RgbImage) -> Made {
    let ((rows, columns), samples) = (size(picture), picture.as_raw());
    by_places(rows, columns, |row, column, channel| {
        samples[(row * columns + column) * 3 + channel] / (1 + channel as u8)
    })
}

/// The red of each tile of 16 by 16 pixels becomes its brightest one, tile by tile in four threads.
fn tiles(picture: &RgbImage) -> Made {
    let mut samples = view(picture)?.to_owned();
    let red = samples.slice_mut(s![.., .., 0])?;
    let bands = red.into_chunk_parts(Axis(0), 16)?;
    let mut tiles: Vec<ArrayViewMut2<'_, u8>> = Vec::new();
    for band in bands {
        tiles.extend(band.into_chunk_parts(Axis(1), 16)?);
    }
    let share = tiles.len().div_ceil(4);
    thread::scope(|scope| {
        for tiles in tiles.chunks_mut(share) {
            scope.spawn(move || {
                for tile in tiles {
                    let brightest = tile.view().max().unwrap_or(0);
                    tile.fill(brightest);
                }
            });
        }
    });
    Ok(samples.into_stored())
}

fn tiles_by_hand(picture: &RgbImage) -> Made {
    let ((rows, columns), mut samples) = (size(picture), picture.to_vec());
    for first in (0..rows).step_by(16) {
        for left in (0..columns).step_by(16) {
            let (last, right) = (rows.min(first + 16), columns.min(left + 16));
            let mut brightest = 0;
            for row in first..last {
                for column in left..right {
                    brightest = brightest.max(samples[(row * columns + column) * 3]);
                }
            }
            for row in first..last {
                for column in left..right {
                    samples[(row * columns + column) * 3] = brightest;
                }
            }
        }
    }
    Ok(samples)
}

/// A tool, and the same by hand.
type Tool = (&'static str, fn(&RgbImage) -> Made, fn(&RgbImage) -> Made);

const TOOLS: [Tool; 7] = [
    ("crop", crop, crop_by_hand),
    ("upside down", upside_down, upside_down_by_hand),
    ("mirrored", mirrored, mirrored_by_hand),
    ("half", half, half_by_hand),
    ("blur", blur, blur_by_hand),
    ("planes", planes, planes_by_hand),
    ("tiles", tiles, tiles_by_hand),
];

fn main() -> Result<(), LayoutError> {
    let pixel =
        |column, row| Rgb([column * 7 + row * row, column * row, row * 5 + column].map(|sample: u32| sample as u8));
    let picture = RgbImage::from_fn(101, 75, pixel);
    for (name, tool, by_hand) in TOOLS {
        println!("{name}: {}", tool(&picture)? == by_hand(&picture)?);
    }
    Ok(())
}
