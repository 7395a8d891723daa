//! The module `compat`: each of its calls by ndarray's signature, with what ndarray 0.17.2 answers, and where it panics.
//!
//! The answers are those of ndarray's own sources, built apart and asked; of the orders of views, those of ndarray's tests.

mod arguments;
mod arrays;
mod checks;
mod dimensions;
mod generic;
mod idioms;
mod indices;
mod most_used;
mod panics;
mod slices;
mod steps;

use ndarray_layout::compat::ErrorKind;

/// The kind of the error of a call.
fn fault<T: std::fmt::Debug>(result: Result<T, ndarray_layout::compat::ShapeError>) -> ErrorKind {
    result.expect_err("an error").kind()
}

/// A stride as ndarray writes it: the bits of the signed number.
fn back(by: isize) -> usize {
    by.wrapping_neg() as usize
}
