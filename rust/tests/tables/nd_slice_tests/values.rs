// Made by `rust/erase` of `crates/nd_slice_tests/src/values.rt`: edit that.
//! What elements print, slices with an end that is picked too, and arguments whose type says the counts of axes.

use crate::test_tables::{is_printed, or_fault};
use ::ndarray_layout::memory::prelude::FallibleToString;
use ::ndarray_layout::nd_base::{ErrorKind, FixedCount, Ix1, Ix2, Ix3};
use ::ndarray_layout::nd_slice::{Slice, SliceInfo, SliceInfoElem};

/// The counts that an index and a range have as an argument between two types, or the fault that they have.
fn counts<Din: FixedCount, Dout: FixedCount>() -> Result<(usize, usize), ErrorKind> {
    let elems = [SliceInfoElem::from(0i32), SliceInfoElem::from(1i32..)];
    let info = or_fault(SliceInfo::<[SliceInfoElem; 2], Din, Dout>::try_from(elems))?;
    Ok((info.in_ndim(), info.out_ndim()))
}

/// A range with a step.
fn range(start: isize, end: Option<isize>, step: isize) -> SliceInfoElem {
    SliceInfoElem::Slice { start, end, step }
}

#[test]
fn r4_rows() {
    let rows = [
        (range(0, None, 1), ".."),
        (range(-3, Some(-1), 2), "-3..-1;2"),
        (range(0, Some(0), 1), "..0"),
        (SliceInfoElem::Index(-1), "-1"),
        (SliceInfoElem::NewAxis, "NewAxis"),
    ];
    for (elem, text) in rows {
        assert!(is_printed(elem.fallible_to_string(), text), "{text}");
    }
    assert!(Slice::inclusive(2, -1).end == None && Slice::inclusive(2, 4).end == Some(5));
    assert!(counts::<Ix2, Ix1>() == Ok((2, 1)));
    assert!(counts::<Ix2, Ix2>() == Err(ErrorKind::IncompatibleShape));
    assert!(counts::<Ix3, Ix1>() == Err(ErrorKind::IncompatibleShape));
}
