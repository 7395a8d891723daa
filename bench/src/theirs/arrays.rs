//! Parts of an array that owns its items, read and written.
use super::*;

/// An array as a user would write it: a list of items, a shape and strides.
struct Array {
    items: Vec<u32>,
    strides: [usize; 2],
}

struct PartCase {
    ranges: [std::ops::Range<usize>; 2],
    items: Vec<u32>,
    place: usize,
}

#[inline(never)]
fn items_of(array: &Array, case: &PartCase) -> Vec<u32> {
    let [rows, columns] = &case.ranges;
    let mut items = Vec::with_capacity(rows.len() * columns.len());
    for i in rows.clone() {
        for j in columns.clone() {
            items.push(array.items[i * array.strides[0] + j * array.strides[1]]);
        }
    }
    items
}

#[inline(never)]
fn write(array: &mut Array, case: &PartCase) {
    let [rows, columns] = &case.ranges;
    let mut at = 0;
    for i in rows.clone() {
        for j in columns.clone() {
            array.items[i * array.strides[0] + j * array.strides[1]] = case.items[at];
            at += 1;
        }
    }
}

pub fn owned(writes: bool, shape: [usize; 2], t: &Parts, passes: usize) -> usize {
    let mut array = Array { items: (0..(shape[0] * shape[1]) as u32).collect(), strides: [shape[1], 1] };
    let each = t.ranges.iter().zip(&t.places);
    let cases: Vec<PartCase> = each
        .map(|(ranges, &place)| PartCase { ranges: ranges.clone(), items: (7..7 + t.count as u32).collect(), place })
        .collect();
    let mut sum = 0usize;
    for _ in 0..passes {
        for case in &cases {
            let number = if writes {
                write(&mut array, case);
                array.items.get(case.place).copied().unwrap_or(0)
            } else {
                items_of(&array, case).last().copied().unwrap_or(0)
            };
            sum = sum.wrapping_add(number as usize);
        }
    }
    sum
}

/// Parts of a row-major array, written one after another.
fn writes(shape: [usize; 2], parts: &[[std::ops::Range<usize>; 2]], passes: usize) -> usize {
    let mut array = Array { items: (0..(shape[0] * shape[1]) as u32).collect(), strides: [shape[1], 1] };
    let case_of = |ranges: &[std::ops::Range<usize>; 2]| PartCase {
        ranges: ranges.clone(),
        items: (7..7 + (ranges[0].len() * ranges[1].len()) as u32).collect(),
        place: 0,
    };
    let cases: Vec<PartCase> = parts.iter().map(case_of).collect();
    let mut sum = 0usize;
    for _ in 0..passes {
        for case in &cases {
            write(&mut array, case);
        }
        sum = sum.wrapping_add(array.items.first().copied().unwrap_or(0) as usize);
    }
    sum
}

/// Each row of an array.
pub fn rows(rows: usize, columns: usize, passes: usize) -> usize {
    let parts: Vec<_> = (0..rows).map(|row| [row..row + 1, 0..columns]).collect();
    writes([rows, columns], &parts, passes)
}

/// Each of `count` by `count` tiles of an array.
pub fn tiles(count: usize, side: usize, passes: usize) -> usize {
    let span = |at: usize| at * side..(at + 1) * side;
    let parts: Vec<_> = (0..count * count).map(|number| [span(number / count), span(number % count)]).collect();
    writes([count * side, count * side], &parts, passes)
}
