//! Calls of arrays beside loops over slices, as one writes them by hand and as rustc compiles them: what `users` lacks.
//!
//! usage: arrays time ROUNDS ROUND_MS [WORD]   the nanoseconds of each side, where a name has WORD

#[path = "arrays/by_hand.rs"]
mod by_hand;
#[path = "arrays/by_package.rs"]
mod by_package;
#[path = "arrays/parts.rs"]
mod parts;
#[path = "arrays/pictures.rs"]
mod pictures;
#[path = "arrays/ready.rs"]
mod ready;
mod timing;

extern crate ndarray_layout;

use std::hint::black_box;
use timing::{Row, row};

// Moves all code that follows by so many bytes: two programs with other numbers are two builds. (`R` is for the linker, which
// leaves out a section that nothing refers to.)
std::arch::global_asm!(
    r#".pushsection .text.shift, "axR", @progbits"#,
    concat!(".space ", env!("SHIFT"), ", 0xcc"),
    ".popsection"
);

/// How many rows and columns an array has.
pub const SIDE: usize = 200;

/// How long the side of a picture of tiles is, and that of a tile.
pub const PICTURE: usize = 100;
pub const TILE: usize = 10;

/// The items of an array.
fn items() -> Vec<u32> {
    (0..(SIDE * SIDE) as u32).map(|number| number.wrapping_mul(2_654_435_761) >> 8).collect()
}

/// A call of both sides that lends the tiles of a picture; the sum over what is left.
fn lending(name: &str, items: usize, theirs: fn(&mut [u8]), ours: fn(&mut [u8])) -> Row {
    let side = |call: fn(&mut [u8])| {
        move |passes| {
            let mut picture = vec![0; PICTURE * PICTURE * 3];
            (0..passes).for_each(|_| call(black_box(&mut picture)));
            picture.iter().enumerate().map(|(place, item)| (place + 1) * usize::from(*item)).sum()
        }
    };
    row(name, items, side(theirs), side(ours))
}

/// Tiles and planes of a picture, lent and filled.
fn filled() -> [Row; 6] {
    let (tiles, planes) = (PICTURE * PICTURE, PICTURE * PICTURE * 3);
    let (by_rows, by_items) = ("100 tiles filled beside lists of rows", "three planes filled beside lists of items");
    let slices = |of: &str| format!("{of}, multi_slice_mut");
    [
        lending("100 tiles filled, into_tiles", tiles, by_hand::fill_tiles, by_package::fill_each_tile),
        lending("100 tiles filled, multi_slice_mut", tiles, by_hand::fill_tiles, by_package::fill_tiles),
        lending(&slices(by_rows), tiles, by_hand::lend_tiles, by_package::fill_tiles),
        lending(&format!("{by_rows}, multi_slice_move"), tiles, by_hand::lend_tiles, by_package::fill_part_muts),
        lending("three planes filled, multi_slice_mut", planes, by_hand::fill_planes, by_package::fill_planes),
        lending(&slices(by_items), planes, by_hand::lend_planes, by_package::fill_planes),
    ]
}

/// A blur of a matrix; the sum over its results.
fn blur(way: &str, ours: fn(&[u32]) -> usize) -> Row {
    let side = |call: fn(&[u32]) -> usize| {
        move |passes| {
            let items = items();
            (0..passes).map(|_| call(black_box(&items))).fold(0, usize::wrapping_add)
        }
    };
    row(format!("blur by 3x3, {way}"), SIDE * SIDE, side(by_hand::blur), side(ours))
}

/// What users ask first comes first: pictures, threads and tiles.
fn rows() -> Vec<Row> {
    let mut rows = pictures::rows();
    rows.extend(parts::rows());
    rows.extend(filled());
    rows.push(blur("rows", by_package::blur_rows));
    rows.push(blur("windows", by_package::blur_windows));
    rows.push(blur("into_windows", by_package::blur_each_window));
    rows.extend(ready::rows());
    rows
}

fn main() {
    let words: Vec<String> = std::env::args().skip(1).collect();
    let number = |place: usize| -> usize { words[place].parse().expect("a number") };
    let word = words.get(3).map_or("", String::as_str);
    let mut rows = rows();
    rows.retain(|row| row.name.contains(word));
    for row in &rows {
        let sums: Vec<usize> = row.sides.iter().map(|call| call(3)).collect();
        assert_eq!(sums[0], sums[1], "{}: the sides return different results", row.name);
    }
    let times = timing::times(&rows, number(1), number(2) as f64 * 1e6);
    for (row, times) in rows.iter().zip(times) {
        println!("{}\t{}\t{}", row.name, times[0], times[1]);
    }
}
