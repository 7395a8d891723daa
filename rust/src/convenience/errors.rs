//! Errors as Rust's own traits know them.

use crate::memory::AllocFailed;
use crate::nd_base::LayoutError;
use crate::ndarray_layout::Stopped;
use alloc::vec::Vec;
use core::error::Error;
use core::fmt;

/// Prints what the error inside prints. Not proved.
impl fmt::Display for LayoutError {
    fn fmt(&self, f: &mut fmt::Formatter<'_>) -> fmt::Result {
        match self {
            LayoutError::Shape(error) => error.fmt(f),
            LayoutError::Memory(error) => error.fmt(f),
        }
    }
}

/// Not proved.
impl Error for LayoutError {}

/// Prints the number of the step that was not taken, and why. Not proved.
impl fmt::Display for Stopped {
    fn fmt(&self, f: &mut fmt::Formatter<'_>) -> fmt::Result {
        write!(f, "step {}: {}", self.at, self.fault)
    }
}

/// Not proved.
impl Error for Stopped {}

/// Prints that memory ran out. Not proved.
impl<T> fmt::Display for AllocFailed<T> {
    fn fmt(&self, f: &mut fmt::Formatter<'_>) -> fmt::Result {
        f.write_str(super::OUT_OF_MEMORY)
    }
}

/// Not proved.
impl<T: fmt::Debug> Error for AllocFailed<T> {}

/// So that `OwnedArray::from_shape_vec(..)?` stands beside the calls of the layer. The list of items is dropped.
/// Not proved.
impl<T> From<(LayoutError, Vec<T>)> for LayoutError {
    fn from((error, _items): (LayoutError, Vec<T>)) -> Self {
        error
    }
}
