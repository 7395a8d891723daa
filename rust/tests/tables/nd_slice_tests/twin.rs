// Made by `rust/erase` of `crates/nd_slice_tests/src/twin.rt`: edit that.
//! All slices of an axis of up to six coordinates with bounds from -6 to 6 or left out and steps from -4 to 4: two of
//! them intersect where a coordinate, of all those of the axis, is picked by both.

use crate::nd_slice_tests::arguments::intersecting;
use ::ndarray_layout::nd_base::new_ix1;
use ::ndarray_layout::nd_slice::{Fit, Slice, SliceInfoElem};
use Fit::{Clamp, Strict};

/// How many slices there are.
const COUNT: usize = 1638;

/// A slice by its number.
fn numbered(number: usize) -> Slice {
    let end = match number / 13 % 14 {
        13 => None,
        place => Some(place as isize - 6),
    };
    Slice { start: (number % 13) as isize - 6, end, step: (number / 182 % 9) as isize - 4 }
}

/// A slice of an axis, with its bounds counted from the front.
#[derive(Clone, Copy)]
struct Bounds {
    start: isize,
    end: isize,
    step: isize,
}

/// What a bound means on an axis of so many coordinates.
fn counted(len: isize, bound: isize, fit: Fit) -> isize {
    let counted = bound.wrapping_add(if bound < 0 { len } else { 0 });
    match fit {
        Strict => counted,
        Clamp => counted.max(0).min(len),
    }
}

/// What a slice means there.
fn meant(len: isize, slice: Slice, fit: Fit) -> Bounds {
    Bounds { start: counted(len, slice.start, fit), end: counted(len, slice.end.unwrap_or(len), fit), step: slice.step }
}

impl Bounds {
    /// Whether the slice has no fault on an axis of so many coordinates.
    fn fits(&self, len: isize) -> bool {
        self.start.min(self.end) >= 0 && self.start.max(self.end) <= len && self.step != 0
    }

    /// Whether the slice picks a coordinate.
    fn picks(&self, coordinate: isize) -> bool {
        let ahead = if self.step > 0 {
            coordinate.wrapping_sub(self.start)
        } else {
            self.end.wrapping_sub(1).wrapping_sub(coordinate)
        };
        self.start <= coordinate && coordinate < self.end && ahead.checked_rem(self.step) == Some(0)
    }
}

/// What is to be answered of two slices of an axis of so many coordinates.
fn answer(len: isize, first: Bounds, second: Bounds) -> &'static str {
    for coordinate in 0..len {
        if first.picks(coordinate) && second.picks(coordinate) {
            return "intersect";
        }
    }
    "apart"
}

/// Whether that is answered of a slice and all others that have no fault there.
fn is_answered(len: u8, first: Slice, fit: Fit) -> bool {
    let (dim, lens) = (new_ix1(len as usize), len as isize);
    let one = meant(lens, first, fit);
    for number in 0..COUNT {
        let second = numbered(number);
        let other = meant(lens, second, fit);
        if other.fits(lens) {
            let (first, second) = ([SliceInfoElem::from(first)], [SliceInfoElem::from(second)]);
            if intersecting(&dim, &first, &second, fit) != answer(lens, one, other) {
                return false;
            }
        }
    }
    true
}

/// The first slice without a fault of which something else is answered with another one, on an axis of so many
/// coordinates.
fn first_wrong(len: u8, fit: Fit) -> Option<usize> {
    for number in 0..COUNT {
        let slice = numbered(number);
        if meant(len as isize, slice, fit).fits(len as isize) && !is_answered(len, slice, fit) {
            return Some(number);
        }
    }
    None
}

#[test]
fn all_slices() {
    for len in 0..7u8 {
        assert!(first_wrong(len, Strict) == None, "{len}");
    }
}

#[test]
fn all_slices_with_moved_bounds() {
    for len in 0..3u8 {
        assert!(first_wrong(len, Clamp) == None, "{len}");
    }
}
