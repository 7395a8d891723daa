// Made by `rust/erase` of `crates/nd_shape_tests/src/texts.rt`: edit that.
//! What errors and layouts print.

use crate::test_tables::is_printed;
use ::ndarray_layout::memory::prelude::FallibleToString;
use ::ndarray_layout::nd_base::{ErrorKind, ShapeError};
use ::ndarray_layout::nd_shape::Layout;
use ErrorKind::{IncompatibleLayout, IncompatibleShape, OutOfBounds, Overflow, RangeLimited, Unsupported};

/// Whether the error of a kind prints this, also as its debug text.
fn prints(kind: ErrorKind, text: &str) -> bool {
    let error = ShapeError::from_kind(kind);
    is_printed(error.fallible_to_string(), text) && is_printed(::ndarray_layout::fallible_format!("{error:?}"), text)
}

/// The kinds of faults, and what their errors print.
static TEXTS_OF_ERRORS: [(ErrorKind, &str); 6] = [
    (IncompatibleShape, "ShapeError/IncompatibleShape: incompatible shapes"),
    (IncompatibleLayout, "ShapeError/IncompatibleLayout: incompatible memory layout"),
    (RangeLimited, "ShapeError/RangeLimited: the shape does not fit in type limits"),
    (OutOfBounds, "ShapeError/OutOfBounds: out of bounds indexing"),
    (Unsupported, "ShapeError/Unsupported: unsupported operation"),
    (Overflow, "ShapeError/Overflow: arithmetic overflow"),
];

#[test]
fn r1_rows() {
    for (kind, text) in &TEXTS_OF_ERRORS {
        assert!(prints(*kind, *text), "{text}");
    }
}

/// Whether a set of bits shows this text and has this tendency.
fn is_set(layout: Layout, text: &str, tendency: i32) -> bool {
    is_printed(::ndarray_layout::fallible_format!("{layout:?}"), text) && layout.tendency() == tendency
}

#[test]
fn r5_rows() {
    let sets = [
        (Layout::none(), "Custom (0x0)", 0),
        (Layout::one_dimensional(), "CFcf (0xf)", 0),
        (Layout::c(), "Cc (0x5)", 2),
        (Layout::f(), "Ff (0xa)", -2),
        (Layout::cpref(), "c (0x4)", 1),
    ];
    for (layout, text, tendency) in sets {
        assert!(is_set(layout, text, tendency), "{text}");
    }
}
