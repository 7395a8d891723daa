//! What is printed. Neither a width, nor a precision, nor the alternate form does anything.

use ErrorKind::{IncompatibleLayout, IncompatibleShape, OutOfBounds, Overflow, RangeLimited, Unsupported};
use ndarray_layout::{ErrorKind, Ix4, IxDyn, Layout, ShapeError};
use std::fmt::Debug;

/// Asserts a value's debug text in each form.
fn assert_shown(value: &impl Debug, text: &str) {
    assert_eq!(format!("{value:?}"), text);
    assert_eq!(format!("{value:#?}"), text);
    assert_eq!(format!("{value:80?}"), text);
    assert_eq!(format!("{value:>80.3?}"), text);
}

#[test]
fn errors_in_each_form() {
    const ROWS: [(ErrorKind, &str); 6] = [
        (IncompatibleShape, "ShapeError/IncompatibleShape: incompatible shapes"),
        (IncompatibleLayout, "ShapeError/IncompatibleLayout: incompatible memory layout"),
        (RangeLimited, "ShapeError/RangeLimited: the shape does not fit in type limits"),
        (OutOfBounds, "ShapeError/OutOfBounds: out of bounds indexing"),
        (Unsupported, "ShapeError/Unsupported: unsupported operation"),
        (Overflow, "ShapeError/Overflow: arithmetic overflow"),
    ];
    for (kind, text) in ROWS {
        let error = ShapeError::from_kind(kind);
        assert_eq!((error.kind(), &error.clone()), (kind, &error));
        assert_eq!(error.to_string(), text);
        assert_eq!(format!("{error:#}"), text);
        assert_eq!(format!("{error:80}"), text);
        assert_eq!(format!("{error:>80.3}"), text);
        assert_shown(&error, text);
    }
}

// A dimension shows its lengths, whatever its type.
#[test]
fn dimensions() {
    assert_eq!(format!("{:?}", IxDyn(&[3, 4, 5, 6])), "Dim { index: [3, 4, 5, 6] }");
    assert_eq!(format!("{:?}", Ix4(3, 4, 5, 6)), "Dim { index: [3, 4, 5, 6] }");
}

// Each set that there is: the bit of an order comes with that of the preference for it.
#[test]
fn layouts_in_each_form() {
    let (c, f, cpref, fpref) = (Layout::c(), Layout::f(), Layout::cpref(), Layout::fpref());
    let rows = [
        (Layout::none(), "Custom (0x0)", 0),
        (cpref, "c (0x4)", 1),
        (c, "Cc (0x5)", 2),
        (fpref, "f (0x8)", -1),
        (f, "Ff (0xa)", -2),
        (cpref.also(fpref), "cf (0xc)", 0),
        (c.also(fpref), "Ccf (0xd)", 1),
        (f.also(cpref), "Fcf (0xe)", -1),
        (Layout::one_dimensional(), "CFcf (0xf)", 0),
        (c.intersect(cpref), "c (0x4)", 1),
        (c.intersect(f), "Custom (0x0)", 0),
    ];
    for (layout, text, tendency) in rows {
        assert_shown(&layout, text);
        assert_eq!(layout.tendency(), tendency, "{text}");
    }
}

// The bits one by one. A set has a flag where it has one of its bits.
#[test]
fn bits_of_layouts() {
    let bits = [Layout::CORDER, Layout::FORDER, Layout::CPREFER, Layout::FPREFER];
    assert_eq!(bits, [1, 2, 4, 8]);
    assert_eq!(bits.map(|bit| Layout::c().is(bit)), [true, false, true, false]);
    assert!(Layout::one_dimensional().is(u32::MAX) && !Layout::one_dimensional().is(0));
}
