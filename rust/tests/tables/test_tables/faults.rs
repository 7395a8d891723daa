// Made by `rust/erase` of `crates/test_tables/src/faults.rt`: edit that.
//! The names of faults.

use ::ndarray_layout::nd_base::{ErrorKind, LayoutError, ShapeError};
use ErrorKind::{IncompatibleLayout, IncompatibleShape, OutOfBounds, Overflow, RangeLimited, Unsupported};

/// The name of a fault, or `none`.
pub fn name_of(fault: Option<ErrorKind>) -> &'static str {
    match fault {
        None => "none",
        Some(IncompatibleLayout) => "IncompatibleLayout",
        Some(IncompatibleShape) => "IncompatibleShape",
        Some(OutOfBounds) => "OutOfBounds",
        Some(Overflow) => "Overflow",
        Some(RangeLimited) => "RangeLimited",
        Some(Unsupported) => "Unsupported",
    }
}

/// The name of the fault of a layout, or `memory` where an allocation fails.
pub fn layout_fault_name(fault: &LayoutError) -> &'static str {
    match fault {
        LayoutError::Shape(fault) => name_of(Some(fault.kind())),
        LayoutError::Memory(_) => "memory",
    }
}

/// The fault of a call that failed, if it did.
///
/// <details><summary>Contract (proved)</summary>
///
/// ```text
/// ensures result ≡ result_err answer
/// ```
/// [How to read it](ndarray_layout::contracts)
/// </details>
pub fn fault_of(answer: Result<(), ShapeError>) -> Option<ErrorKind> {
    match answer {
        Ok(()) => None,
        Err(fault) => Some(fault.kind()),
    }
}

/// The answer of a call, or the fault that it failed with.
///
/// <details><summary>Contract (proved)</summary>
///
/// ```text
/// ensures result ≡ answer
/// ```
/// [How to read it](ndarray_layout::contracts)
/// </details>
pub fn or_fault<T: Sized>(answer: Result<T, ShapeError>) -> Result<T, ErrorKind> {
    match answer {
        Ok(answer) => Ok(answer),
        Err(fault) => Err(fault.kind()),
    }
}
