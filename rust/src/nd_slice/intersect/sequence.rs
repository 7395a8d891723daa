// Made by `rust/erase` of `crates/nd_slice/src/intersect/sequence.rt`: edit that.
//! Lists of numbers that lie a step apart.

use crate::nd_slice::intersect::multiplier::least_multiplier;

/// Whether some number up to `room` is a multiple of `second_step`, and also a multiple of
/// `first_step` once `ahead` is added.
///
/// <details><summary>Contract (proved)</summary>
///
/// ```text
/// requires first_some: 0 < first_step
/// requires first_small: first_step ≤ 2 ^ 63
/// requires second_some: 0 < second_step
/// requires second_small: second_step ≤ 2 ^ 63
/// ensures IsTrue result ↔ IntersectWithin ahead first_step second_step room
/// ```
/// [How to read it](crate::contracts)
/// </details>
#[inline]
fn intersects_within(ahead: usize, first_step: usize, second_step: usize, room: usize) -> bool {
    // (0 is such a number, or the only multiple within the room: then no equation is solved, and for a step of 1 no
    // remainder is taken)
    if first_step == 1 || ahead % first_step == 0 {
        return true;
    }
    if room < second_step {
        return false;
    }
    match least_multiplier(second_step, first_step, ahead) {
        Some((least, _)) => least <= room / second_step,
        None => false,
    }
}

/// Whether two lists of numbers share one.
///
/// A list is given by its first number, the number that it goes up to, and its step, whose sign does not matter: least,
/// least + |step|, and so on.
///
/// Takes time in proportion to the count of bits.
///
/// 0 3 6 9 and 5 7 9: true. ndarray's `arith_seq_intersect`.
///
/// # Conditions
///
/// The caller ensures that no step is 0. Otherwise this call or a later one panics or returns unspecified values.
///
/// <details><summary>Contract (proved)</summary>
///
/// ```text
/// requires first_moves: first.2 ≢ pos 0
/// requires second_moves: second.2 ≢ pos 0
/// ensures IsTrue result ↔ SequencesIntersect first second
/// ```
/// [How to read it](crate::contracts)
/// </details>
#[inline]
#[must_use]
pub fn arith_seq_intersect(first: (isize, isize, isize), second: (isize, isize, isize)) -> bool {
    let least = first.0.max(second.0);
    let greatest = first.1.min(second.1);
    if least > greatest {
        return false;
    }
    let room = greatest.abs_diff(least);
    let (first_step, second_step) = (first.2.unsigned_abs(), second.2.unsigned_abs());
    let ahead = first.0.abs_diff(second.0);
    if first.0 <= second.0 {
        intersects_within(ahead, first_step, second_step, room)
    } else {
        intersects_within(ahead, second_step, first_step, room)
    }
}
