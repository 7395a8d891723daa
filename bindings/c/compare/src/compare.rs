//! The same random calls of both libraries.

use crate::model::{View, layouts};
use crate::numbers::Numbers;
use std::collections::BTreeMap;
use std::fmt::Debug;

pub const OK: i32 = 0;
pub const INCOMPATIBLE_SHAPE: i32 = 1;
pub const INCOMPATIBLE_LAYOUT: i32 = 2;
pub const OUT_OF_BOUNDS: i32 = 4;
pub const UNSUPPORTED: i32 = 5;
pub const OVERFLOW: i32 = 6;
pub const BAD_ARGUMENT: i32 = 7;

/// What a number is, or each of a list, that no call has written.
pub const UNWRITTEN: usize = 0xa5a5_a5a5_a5a5_a5a5;
/// What an answer is that no call has written.
pub const NO_ANSWER: i32 = -77;

const CALLS: usize = 100_000;

/// Makes a call of both libraries with random arguments, and compares the status and all that is written.
macro_rules! compare {
    ($call:literal, $statuses:expr, $arguments:expr, $made:expr $(,)?) => {
        crate::compare::compare_both(
            $call,
            &$statuses,
            $arguments,
            {
                use crate::exports::erased::*;
                $made
            },
            {
                use crate::exports::proved::*;
                $made
            },
        )
    };
}
pub(crate) use compare;

/// Compares 100,000 calls. Each of the statuses comes in some of them, success in many, and no other one.
pub fn compare_both<A: Debug, T: PartialEq + Debug>(
    call: &str,
    statuses: &[i32],
    arguments: impl Fn(&mut Numbers) -> A,
    erased: impl Fn(&A) -> (i32, T),
    proved: impl Fn(&A) -> (i32, T),
) {
    let mut numbers = Numbers::new(call.bytes().map(u64::from).sum::<u64>() * 1_000_003);
    let mut counts = BTreeMap::<i32, usize>::new();
    for _ in 0..CALLS {
        let arguments = arguments(&mut numbers);
        let expected = proved(&arguments);
        assert_eq!(erased(&arguments), expected, "the package, and the proved library: {call} of {arguments:?}");
        *counts.entry(expected.0).or_default() += 1;
    }
    println!("{call}: {counts:?}");
    assert!(counts.keys().eq(statuses), "{call}: of the statuses {statuses:?} came {counts:?}");
    assert!(counts.values().all(|count| *count >= 100), "{call}: few of a status: {counts:?}");
    assert!(counts[&OK] >= 10_000, "{call}: few calls succeeded: {counts:?}");
}

/// One of two choices, seldom a number without a meaning.
pub fn choice(numbers: &mut Numbers) -> i32 {
    if numbers.once_in(30) { numbers.pick(&[-1, 2, 3, i32::MIN, i32::MAX]) } else { numbers.pick(&[0, 1]) }
}

/// A list to be written of the count that is expected, seldom of one more or less.
pub fn room(numbers: &mut Numbers, expected: usize) -> Vec<usize> {
    let count = match numbers.below(40) {
        0 => expected + 1,
        1 => expected.saturating_sub(1),
        _ => expected,
    };
    vec![UNWRITTEN; count]
}

/// A shape and strides, seldom of up to twelve axes.
pub fn layout(numbers: &mut Numbers) -> (Vec<usize>, Vec<isize>) {
    let (mut shape, mut strides) = numbers.layout();
    if numbers.once_in(16) {
        for _ in 0..numbers.below(7) {
            shape.push(1);
            strides.push(numbers.extreme_stride());
        }
    }
    (shape, strides)
}

/// A shape, seldom of up to twelve axes.
pub fn shape(numbers: &mut Numbers) -> Vec<usize> {
    layout(numbers).0
}

/// A layout with a start, most often such that all places lie from 0 to the limit.
pub fn view(numbers: &mut Numbers) -> View {
    let (shape, strides) = layout(numbers);
    let (low, high) = layouts::low_and_high(&shape, &strides);
    View { start: numbers.start(low, high), shape, strides }
}

/// Strides as the exports take them: the numbers of the same bits without a sign.
pub fn kept(strides: &[isize]) -> Vec<usize> {
    strides.iter().map(|stride| *stride as usize).collect()
}
