//! Windows and chunks of an array as iterators over arrays.

use crate::layouts::{Layout, rounds};
use crate::numbers::Numbers;
use crate::{NUMBERS, kind, rows, rows_mut};
use ndarray_layout::ErrorKind::{IncompatibleShape, Overflow, Unsupported};
use ndarray_layout::{ArrayView, BlocksIter, Ix0, Ix2, IxDyn};

#[test]
fn windows_and_chunks_are_read() {
    let array = || rows(&NUMBERS);
    let sums = |blocks: BlocksIter<'_, u8, Ix2>| blocks.map(|block| block.into_iter().sum()).collect::<Vec<u8>>();
    assert_eq!(sums(array().into_windows(&Ix2(2, 2)).unwrap()), [8, 12]);
    assert_eq!(sums(array().into_exact_chunks(&Ix2(2, 2)).unwrap()), [8]);
    assert_eq!(sums(array().into_exact_chunks(&Ix2(1, 1)).unwrap()), [0, 1, 2, 3, 4, 5]);
    assert_eq!(sums(array().into_exact_chunks(&Ix2(3, 1)).unwrap()), []);
    assert_eq!(kind(array().into_windows(&Ix2(2, 0))), Some(Unsupported));
    assert_eq!(kind(array().into_exact_chunks(&Ix2(0, 9))), Some(Unsupported));
    assert_eq!(kind(array().into_exact_chunks(&Ix2(usize::MAX, 2))), Some(Overflow));
    let dynamic = array().into_dimensionality::<IxDyn>().unwrap();
    assert_eq!(kind(dynamic.into_windows(&IxDyn(&[1]))), Some(IncompatibleShape));
    let left = array().into_windows(&Ix2(1, 2)).unwrap();
    assert_eq!(format!("{left:?}"), "Arrays { left: 4, .. }");
    let one = ArrayView::from_shape(Ix0(), &NUMBERS).unwrap();
    assert_eq!(one.into_exact_chunks(&Ix0()).unwrap().map(|block| block[()]).collect::<Vec<_>>(), [0]);
}

/// The layouts of the blocks of a shape, with steps from one to the next.
pub fn blocks_of(layout: &Layout, block: &[usize], steps: &[usize]) -> Vec<Layout> {
    let mut starts = layout.clone();
    for (axis, len) in starts.shape.iter_mut().enumerate() {
        *len = if block[axis] > *len { 0 } else { (*len - block[axis]) / steps[axis] + 1 };
    }
    let first = |index: Vec<usize>| index.iter().zip(steps).map(|(number, step)| number * step).collect::<Vec<_>>();
    let one = |index| Layout { shape: block.to_vec(), start: layout.place(&first(index)), ..layout.clone() };
    starts.indices().into_iter().map(one).collect()
}

/// A shape of blocks of a layout, now and then one that is longer than an axis.
pub fn block(layout: &Layout, numbers: &mut Numbers) -> Vec<usize> {
    let mut size = |len: &usize| if numbers.once_in(9) { len + 1 } else { 1 + numbers.below(3.min(len + 1)) };
    layout.shape.iter().map(&mut size).collect()
}

/// What comes from both ends, where some are left out now and then, is what comes of a list.
fn check_both_ends(mut left: BlocksIter<'_, usize, IxDyn>, mut expected: Vec<Vec<usize>>, numbers: &mut Numbers) {
    loop {
        assert_eq!((left.len(), left.size_hint()), (expected.len(), (expected.len(), Some(expected.len()))));
        let (some, count) = (!expected.is_empty(), numbers.below(3).min(expected.len()));
        let (block, places) = match numbers.below(4) {
            0 => (left.next(), some.then(|| expected.remove(0))),
            1 => (left.next_back(), expected.pop()),
            2 => {
                left.advance(count);
                expected.drain(..count);
                continue;
            }
            _ => {
                left.advance_back(count);
                expected.truncate(expected.len() - count);
                continue;
            }
        };
        assert_eq!(block.map(|block| block.to_vec().unwrap()), places);
        if !some {
            return;
        }
    }
}

#[test]
fn windows_and_chunks_are_the_models() {
    rounds(10_000, 41, |numbers| {
        let layout = if numbers.once_in(2) { Layout::random(numbers) } else { Layout::shared(numbers) };
        let numbered: Vec<usize> = (0..layout.count).collect();
        let (block, ones) = (block(&layout, numbers), vec![1; layout.shape.len()]);
        for windows in [true, false] {
            let steps = if windows { &ones } else { &block };
            let expected: Vec<Vec<usize>> = blocks_of(&layout, &block, steps).iter().map(Layout::places).collect();
            let left = || match windows {
                true => layout.array(&numbered).into_windows(&IxDyn(&block)).unwrap(),
                false => layout.array(&numbered).into_exact_chunks(&IxDyn(&block)).unwrap(),
            };
            let forward: Vec<_> = left().map(|block| block.to_vec().unwrap()).collect();
            assert_eq!(forward, expected, "{layout:?} by {block:?}, windows: {windows}");
            let backwards: Vec<_> = left().rev().map(|block| block.to_vec().unwrap()).collect();
            assert!(backwards.iter().rev().eq(&expected), "{layout:?} by {block:?}, windows: {windows}");
            check_both_ends(left(), expected, numbers);
        }
    });
}

#[test]
fn tiles_are_written() {
    let mut numbers = NUMBERS;
    assert_eq!(kind(rows_mut(&mut numbers).into_tiles(&Ix2(1, 0))), Some(Unsupported));
    let tiles = rows_mut(&mut numbers).into_tiles(&Ix2(2, 1)).unwrap();
    assert_eq!(format!("{tiles:?}"), "Parts { left: 3, .. }");
    for (mut tile, number) in tiles.zip([10, 20]) {
        tile.iter_mut().for_each(|item| *item += number);
    }
    assert_eq!(numbers, [10, 21, 2, 13, 24, 5, 6]);
    let halves = rows_mut(&mut numbers).into_tiles(&Ix2(1, 3)).unwrap();
    let pairs = halves.flat_map(|half| half.into_tiles(&Ix2(1, 2)).unwrap());
    let mut all: Vec<_> = pairs.collect();
    all.iter_mut().rev().zip(1..).for_each(|(pair, number)| pair.fill(number));
    assert_eq!(numbers, [2, 2, 2, 1, 1, 5, 6]);
}

#[test]
fn tiles_are_written_as_the_models() {
    rounds(10_000, 42, |numbers| {
        let layout = Layout::random(numbers);
        let mut numbered: Vec<usize> = (0..layout.count).collect();
        let block = block(&layout, numbers);
        let mut expected: Vec<Vec<usize>> = blocks_of(&layout, &block, &block).iter().map(Layout::places).collect();
        let (mut written, mut kept) = (vec![0; layout.count], Vec::new());
        let mut left = layout.array_mut(&mut numbered).into_tiles(&IxDyn(&block)).unwrap();
        while !expected.is_empty() {
            assert_eq!(left.len(), expected.len(), "{layout:?} by {block:?}");
            let (tile, places) = match numbers.below(5) {
                0 => {
                    left.advance(1);
                    expected.remove(0);
                    continue;
                }
                1 | 2 => (left.next(), expected.remove(0)),
                _ => (left.next_back(), expected.pop().unwrap()),
            };
            let tile = tile.unwrap();
            assert!(tile.iter().eq(&places), "{layout:?} by {block:?}");
            places.iter().for_each(|place| written[*place] += 1000);
            kept.push(tile);
        }
        assert!(left.next().is_none() && left.next_back().is_none());
        kept.iter_mut().for_each(|tile| tile.iter_mut().for_each(|item| *item += 1000));
        assert!(written.iter().enumerate().map(|(place, more)| place + more).eq(numbered), "{layout:?} by {block:?}");
    });
}
