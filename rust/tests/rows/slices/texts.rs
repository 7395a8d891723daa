//! What slices and elements print as, whatever form is asked for.

use ndarray_layout::{Slice, SliceInfoElem};
use std::fmt::Display;

const MAX: isize = isize::MAX;

const MIN: isize = isize::MIN;

fn assert_prints(value: impl Display, text: &str) {
    assert_eq!(value.to_string(), text);
    assert_eq!(format!("{value:*>#40.3}"), text);
}

/// Asserts what an element prints as, and a range as a slice too.
fn assert_elem_prints(elem: SliceInfoElem, text: &str) {
    assert_prints(elem, text);
    if let SliceInfoElem::Slice { start, end, step } = elem {
        assert_prints(Slice { start, end, step }, text);
    }
}

// Elements of all ranges that they can be made of, and of numbers. An end of -1 that is picked too is no end.
#[test]
#[expect(clippy::reversed_empty_ranges)]
fn elements_of_ranges_and_numbers() {
    assert_elem_prints(SliceInfoElem::from(..), "..");
    assert_elem_prints(SliceInfoElem::from(MIN..MAX), "-9223372036854775808..9223372036854775807");
    assert_elem_prints(SliceInfoElem::from(MAX..), "9223372036854775807..");
    assert_elem_prints(SliceInfoElem::from(..MIN), "..-9223372036854775808");
    assert_elem_prints(SliceInfoElem::from(-3_i32..2), "-3..2");
    assert_elem_prints(SliceInfoElem::from(i32::MIN..), "-2147483648..");
    assert_elem_prints(SliceInfoElem::from(..i32::MAX), "..2147483647");
    assert_elem_prints(SliceInfoElem::from(2_i32..=-1), "2..");
    assert_elem_prints(SliceInfoElem::from(..=i32::MAX), "..2147483648");
    assert_elem_prints(SliceInfoElem::from(Slice::inclusive(2, -1)), "2..");
    assert_elem_prints(SliceInfoElem::from(Slice::inclusive(2, 4)), "2..5");
    assert_elem_prints(SliceInfoElem::from(MIN), "-9223372036854775808");
    assert_elem_prints(SliceInfoElem::from(-7_i32), "-7");
}

#[test]
fn elements_of_their_parts() {
    let range = |start, end, step| SliceInfoElem::Slice { start, end, step };
    assert_elem_prints(range(0, None, 1), "..");
    assert_elem_prints(range(-3, Some(-1), 2), "-3..-1;2");
    assert_elem_prints(range(0, Some(0), 1), "..0");
    assert_elem_prints(SliceInfoElem::Index(0), "0");
    assert_elem_prints(SliceInfoElem::Index(MAX), "9223372036854775807");
    assert_elem_prints(SliceInfoElem::NewAxis, "NewAxis");
    assert_elem_prints(range(9, None, 0), "9..;0");
    assert_elem_prints(range(0, Some(MIN), MIN), "..-9223372036854775808;-9223372036854775808");
    assert_elem_prints(range(0, Some(MAX), MAX), "..9223372036854775807;9223372036854775807");
}
