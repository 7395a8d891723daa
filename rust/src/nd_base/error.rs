// Made by `rust/erase` of `crates/nd_base/src/error.rt`: edit that.
//! Errors of shapes, of layouts and of calls on them.

use crate::memory::AllocError;

use crate::memory::AllocFailed;
use core::error::Error;
use core::fmt;

/// The kinds of errors of shapes and layouts. ndarray's `ErrorKind`.
#[derive(Clone, Copy, PartialEq, Debug)]
pub enum ErrorKind {
    /// Counts of axes or lengths do not go together.
    IncompatibleShape,
    /// The strides do not go with the shape, or with the data as it lies.
    IncompatibleLayout,
    /// A number does not fit the type that it is for. No call here returns it.
    RangeLimited,
    /// An index, or a layout as a whole, leaves its bounds.
    OutOfBounds,
    /// What is asked for is not offered.
    Unsupported,
    /// A size or a span passes the greatest `isize`.
    Overflow,
}

/// An error of a shape or a layout, with its kind. ndarray's `ShapeError`.
#[derive(Clone, PartialEq)]
pub struct ShapeError {
    repr: ErrorKind,
}

impl ShapeError {
    /// The kind of the error. ndarray's `kind`.
    ///
    /// <details><summary>Contract (proved)</summary>
    ///
    /// ```text
    /// ensures result ≡ self.now
    /// ```
    /// [How to read it](crate::contracts)
    /// </details>
    #[must_use]
    #[inline]
    pub fn kind(&self) -> ErrorKind {
        self.repr
    }

    /// The error of a kind. ndarray's `ShapeError::from_kind`.
    ///
    /// <details><summary>Contract (proved)</summary>
    ///
    /// ```text
    /// ensures result ≡ error
    /// ```
    /// [How to read it](crate::contracts)
    /// </details>
    #[inline]
    #[must_use]
    pub fn from_kind(error: ErrorKind) -> Self {
        from_kind(error)
    }
}

/// The error of a kind. ndarray's `from_kind`.
///
/// <details><summary>Contract (proved)</summary>
///
/// ```text
/// ensures result ≡ kind
/// ```
/// [How to read it](crate::contracts)
/// </details>
#[inline]
#[must_use]
pub fn from_kind(kind: ErrorKind) -> ShapeError {
    ShapeError { repr: kind }
}

/// What the error of a kind prints.
///
/// <details><summary>Contract (proved)</summary>
///
/// ```text
/// ensures result.now ≡ shape_error_text kind
/// ```
/// [How to read it](crate::contracts)
/// </details>
#[inline]
fn text_of(kind: ErrorKind) -> &'static str {
    match kind {
        ErrorKind::IncompatibleShape => "ShapeError/IncompatibleShape: incompatible shapes",
        ErrorKind::IncompatibleLayout => "ShapeError/IncompatibleLayout: incompatible memory layout",
        ErrorKind::RangeLimited => "ShapeError/RangeLimited: the shape does not fit in type limits",
        ErrorKind::OutOfBounds => "ShapeError/OutOfBounds: out of bounds indexing",
        ErrorKind::Unsupported => "ShapeError/Unsupported: unsupported operation",
        ErrorKind::Overflow => "ShapeError/Overflow: arithmetic overflow",
    }
}

impl fmt::Display for ShapeError {
    #[inline]
    fn fmt(&self, f: &mut fmt::Formatter<'_>) -> fmt::Result {
        f.write_str(text_of(self.repr))
    }
}

impl fmt::Debug for ShapeError {
    #[inline]
    fn fmt(&self, f: &mut fmt::Formatter<'_>) -> fmt::Result {
        fmt::Display::fmt(self, f)
    }
}

impl Error for ShapeError {}

/// An error of a shape or a layout, or of memory. The project's own.
#[derive(Debug, Clone, PartialEq)]
pub enum LayoutError {
    /// An error of a shape or a layout.
    Shape(ShapeError),
    /// An allocation failed.
    Memory(AllocError),
}

impl From<ShapeError> for LayoutError {
    #[inline]
    fn from(error: ShapeError) -> Self {
        LayoutError::Shape(error)
    }
}

impl From<AllocError> for LayoutError {
    #[inline]
    fn from(error: AllocError) -> Self {
        LayoutError::Memory(error)
    }
}

/// So that `v.push(x)?` stands beside the calls of this layer. The value that was not stored is dropped.
impl<T: Sized> From<AllocFailed<T>> for LayoutError {
    #[inline]
    fn from(_error: AllocFailed<T>) -> Self {
        LayoutError::Memory(AllocError)
    }
}
