//! The same by the package.

use super::by_hand::wrapping;
use super::{PICTURE, SIDE, TILE};
use ndarray_layout::{ArrayView, ArrayViewMut, Ix2, Ix3, Ix4, SliceInfoElem, s};

fn array(items: &[u32]) -> ArrayView<'_, u32, Ix2> {
    ArrayView::from_shape(Ix2(SIDE, SIDE), items).expect("an array")
}

/// The means of each item and its eight neighbours, by the slices of three rows.
#[inline(never)]
pub fn blur_rows(items: &[u32]) -> usize {
    let array = array(items);
    let rows: Vec<&[u32]> = array.rows().map(|row| row.as_slice()).collect::<Option<_>>().expect("rows without gaps");
    let mut sum = 0u32;
    for three in rows.windows(3) {
        let [above, own, below] = [0, 1, 2].map(|row| three[row].windows(3));
        for ((above, own), below) in above.zip(own).zip(below) {
            sum = sum.wrapping_add([above, own, below].into_iter().flatten().fold(0, wrapping) / 9);
        }
    }
    sum as usize
}

/// The same by the rows of all windows, three for each.
#[inline(never)]
pub fn blur_windows(items: &[u32]) -> usize {
    let windows: ArrayView<'_, u32, Ix4> = array(items).windows(&Ix2(3, 3)).expect("windows");
    let mut rows = windows.rows();
    let mut sum = 0u32;
    while let Some(above) = rows.next() {
        let first = above.into_iter().fold(0, wrapping);
        let all = rows.by_ref().take(2).fold(first, |sum, row| row.into_iter().fold(sum, wrapping));
        sum = sum.wrapping_add(all / 9);
    }
    sum as usize
}

/// The same, where each window is an array of its own.
#[inline(never)]
pub fn blur_each_window(items: &[u32]) -> usize {
    let windows = array(items).into_windows(&Ix2(3, 3)).expect("windows");
    let mean = |window: ArrayView<'_, u32, Ix2>| {
        (0..3).flat_map(|i| (0..3).map(move |j| (i, j))).fold(0, |sum, index| wrapping(sum, &window[index])) / 9
    };
    windows.map(mean).fold(0u32, u32::wrapping_add) as usize
}

/// The tiles of a picture, as slices.
fn tiles() -> impl Iterator<Item = [SliceInfoElem; 2]> {
    let starts = || (0..PICTURE).step_by(TILE);
    starts().flat_map(move |row| starts().map(move |column| *s![row..row + TILE, column..column + TILE]))
}

fn picture(items: &mut [u8]) -> ArrayViewMut<'_, u8, Ix2> {
    ArrayViewMut::from_shape(Ix2(PICTURE, PICTURE), items).expect("a picture")
}

#[inline(never)]
pub fn fill_tiles(items: &mut [u8]) {
    let starts = || (0..PICTURE).step_by(TILE);
    let slice = |row: usize, column: usize| s![row..row + TILE, column..column + TILE];
    let slices: Vec<_> = starts().flat_map(|row| starts().map(move |column| slice(row, column))).collect();
    let mut picture = picture(items);
    let tiles = picture.multi_slice_mut(slices).expect("tiles apart");
    tiles.into_iter().enumerate().for_each(|(number, mut tile)| tile.fill(number as u8));
}

/// Each tile of the whole picture, without slices that are compared.
#[inline(never)]
pub fn fill_each_tile(items: &mut [u8]) {
    let tiles = picture(items).into_tiles(&Ix2(TILE, TILE)).expect("tiles");
    tiles.enumerate().for_each(|(number, mut tile)| tile.fill(number as u8));
}

#[inline(never)]
pub fn fill_part_muts(items: &mut [u8]) {
    let slices: Vec<_> = tiles().collect();
    let tiles = picture(items).multi_slice_move::<_, Ix2>(&slices).expect("tiles apart");
    tiles.into_iter().enumerate().for_each(|(number, mut tile)| tile.fill(number as u8));
}

#[inline(never)]
pub fn fill_planes(items: &mut [u8]) {
    let mut picture = ArrayViewMut::from_shape(Ix3(PICTURE, PICTURE, 3), items).expect("a picture");
    let planes = picture.multi_slice_mut([0, 1, 2].map(|colour| s![.., .., colour])).expect("planes apart");
    planes.into_iter().zip(1..).for_each(|(mut plane, colour)| plane.fill(colour));
}
