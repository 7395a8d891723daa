//! Small tiles of an array that owns its items: a slice that is checked once and moved, beside loops by hand.

use super::timing::{Row, row};
use ndarray_layout::{Ix2, LayoutError, OwnedArray, ReadySlice, ShapeError, s};
use std::ops::Range;

/// How many rows and columns the array has, and how many tiles of it are read or written.
const WIDE: usize = 1000;
const TILES: usize = 1024;

/// A tile: its rows and columns, the items for it, and how far the slice moves.
struct Tile {
    ranges: [Range<usize>; 2],
    items: Vec<u32>,
    by: Ix2,
}

/// Tiles of a shape here and there.
fn tiles([rows, columns]: [usize; 2]) -> Vec<Tile> {
    let first = |number: usize, factor: usize, len: usize| number * factor % (WIDE + 1 - len);
    let tile = |number: usize| {
        let (i, j) = (first(number, 7919, rows), first(number, 104_729, columns));
        Tile { ranges: [i..i + rows, j..j + columns], items: (7..).take(rows * columns).collect(), by: Ix2(i, j) }
    };
    (0..TILES).map(tile).collect()
}

fn numbers() -> Vec<u32> {
    (0..(WIDE * WIDE) as u32).collect()
}

#[inline(never)]
fn read_by_hand(items: &[u32], tile: &Tile) -> Vec<u32> {
    let [rows, columns] = &tile.ranges;
    let mut list = Vec::with_capacity(rows.len() * columns.len());
    for i in rows.clone() {
        for j in columns.clone() {
            list.push(items[i * WIDE + j]);
        }
    }
    list
}

#[inline(never)]
fn write_by_hand(items: &mut [u32], tile: &Tile) {
    let [rows, columns] = &tile.ranges;
    let mut at = 0;
    for i in rows.clone() {
        for j in columns.clone() {
            items[i * WIDE + j] = tile.items[at];
            at += 1;
        }
    }
}

#[inline(never)]
fn read(array: &OwnedArray<u32, Ix2>, ready: &ReadySlice<Ix2>, tile: &Tile) -> Result<Vec<u32>, LayoutError> {
    array.items_of(ready, &tile.by)
}

#[inline(never)]
fn write(array: &mut OwnedArray<u32, Ix2>, ready: &ReadySlice<Ix2>, tile: &Tile) -> Result<(), ShapeError> {
    array.set_items_of(ready, &tile.by, &tile.items)
}

/// An array, and a slice of a tile's shape at its first index.
fn array([rows, columns]: [usize; 2]) -> (OwnedArray<u32, Ix2>, ReadySlice<Ix2>) {
    let array = OwnedArray::from_shape_vec(Ix2(WIDE, WIDE), numbers()).expect("an array");
    let ready = array.ready(&s![..rows, ..columns]).expect("a slice that fits");
    (array, ready)
}

/// The sum of what a call returns for each tile, in each pass.
fn each(shape: [usize; 2], passes: usize, mut call: impl FnMut(&Tile) -> u32) -> usize {
    let tiles = tiles(shape);
    (0..passes).flat_map(|_| &tiles).fold(0, |sum, tile| sum.wrapping_add(call(tile) as usize))
}

fn reading(name: &str, shape: [usize; 2]) -> Row {
    let last = |items: Vec<u32>| items.last().copied().unwrap_or(0);
    let by_hand = move |passes| {
        let items = numbers();
        each(shape, passes, |tile| last(read_by_hand(&items, tile)))
    };
    let by_package = move |passes| {
        let (array, ready) = array(shape);
        each(shape, passes, |tile| last(read(&array, &ready, tile).expect("a tile")))
    };
    row(format!("items_of, {name}"), TILES, by_hand, by_package)
}

fn writing(name: &str, shape: [usize; 2]) -> Row {
    let by_hand = move |passes| {
        let mut items = numbers();
        each(shape, passes, |tile| {
            write_by_hand(&mut items, tile);
            items[WIDE]
        })
    };
    let by_package = move |passes| {
        let (mut array, ready) = array(shape);
        each(shape, passes, |tile| {
            write(&mut array, &ready, tile).expect("a tile");
            array.stored()[WIDE]
        })
    };
    row(format!("set_items_of, {name}"), TILES, by_hand, by_package)
}

pub fn rows() -> Vec<Row> {
    [("a tile of 3x3", [3, 3]), ("a row of 10", [1, 10])]
        .into_iter()
        .flat_map(|(name, shape)| [reading(name, shape), writing(name, shape)])
        .collect()
}
