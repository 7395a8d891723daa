//! Memory that may run out: calls that say so, over Rust's own lists and texts.
//!
//! Not proved: the package trusts this module. It stands for what the sources use of the kit's library.

use alloc::collections::TryReserveError;
use alloc::string::String;
use alloc::vec::Vec;
use core::fmt;

/// An allocation failed.
#[derive(Clone, Copy, PartialEq, Eq, Debug)]
pub struct AllocError;

impl fmt::Display for AllocError {
    fn fmt(&self, f: &mut fmt::Formatter<'_>) -> fmt::Result {
        f.write_str("out of memory")
    }
}

impl core::error::Error for AllocError {}

impl From<TryReserveError> for AllocError {
    fn from(_: TryReserveError) -> Self {
        AllocError
    }
}

/// An allocation failed for an item, which is given back.
#[derive(Clone, Copy, PartialEq, Eq, Debug)]
pub struct AllocFailed<T> {
    /// The item.
    pub value: T,
}

impl<T> From<AllocFailed<T>> for AllocError {
    fn from(_: AllocFailed<T>) -> Self {
        AllocError
    }
}

/// What the erased sources name without an import.
pub mod prelude {
    pub use super::{
        FallibleIterator, FallibleSlice, FallibleStr, FallibleString, FallibleToString, FallibleVec, FallibleWrite,
    };
    pub use alloc::string::String;
    pub use alloc::vec::Vec;
}

/// The calls of a list that may allocate.
pub trait FallibleVec<T>: Sized {
    /// No items, with room for so many.
    fn fallible_with_capacity(capacity: usize) -> Result<Self, AllocError>;

    /// The items of a slice.
    fn fallible_from_slice(items: &[T]) -> Result<Self, AllocError>
    where
        T: Copy;

    /// One item more.
    fn fallible_push(&mut self, item: T) -> Result<(), AllocFailed<T>>;

    /// One item more, for which there is room.
    fn push_reserved(&mut self, item: T);

    /// The items of a slice after the own ones.
    fn fallible_extend_from_slice(&mut self, items: &[T]) -> Result<(), AllocError>
    where
        T: Copy;

    /// The items from an index on, which this list has no longer.
    fn fallible_split_off(&mut self, at: usize) -> Result<Self, AllocError>;
}

impl<T> FallibleVec<T> for Vec<T> {
    fn fallible_with_capacity(capacity: usize) -> Result<Self, AllocError> {
        let mut items = Vec::new();
        items.try_reserve_exact(capacity)?;
        Ok(items)
    }

    fn fallible_from_slice(items: &[T]) -> Result<Self, AllocError>
    where
        T: Copy,
    {
        items.fallible_to_vec()
    }

    #[inline]
    fn fallible_push(&mut self, item: T) -> Result<(), AllocFailed<T>> {
        if self.len() == self.capacity() && self.try_reserve(1).is_err() {
            return Err(AllocFailed { value: item });
        }
        self.push(item);
        Ok(())
    }

    #[inline]
    fn push_reserved(&mut self, item: T) {
        // (so rustc sees that it takes no memory)
        assert!(self.len() < self.capacity(), "room was reserved");
        self.push(item);
    }

    #[inline]
    fn fallible_extend_from_slice(&mut self, items: &[T]) -> Result<(), AllocError>
    where
        T: Copy,
    {
        self.try_reserve(items.len())?;
        self.extend_from_slice(items);
        Ok(())
    }

    fn fallible_split_off(&mut self, at: usize) -> Result<Self, AllocError> {
        let mut others = Vec::fallible_with_capacity(self.len() - at)?;
        others.extend(self.drain(at..));
        Ok(others)
    }
}

/// The call of a slice that allocates.
pub trait FallibleSlice<T> {
    /// The items in a list of their own.
    fn fallible_to_vec(&self) -> Result<Vec<T>, AllocError>;
}

impl<T: Clone> FallibleSlice<T> for [T] {
    fn fallible_to_vec(&self) -> Result<Vec<T>, AllocError> {
        let mut items = Vec::fallible_with_capacity(self.len())?;
        items.extend_from_slice(self);
        Ok(items)
    }
}

/// The call of an iterator that allocates.
pub trait FallibleIterator: Iterator + Sized {
    /// The items in a list.
    fn fallible_collect(self) -> Result<Vec<Self::Item>, AllocError> {
        let mut items = Vec::new();
        for item in self {
            items.fallible_push(item)?;
        }
        Ok(items)
    }
}

impl<I: Iterator> FallibleIterator for I {}

/// The call of a text that may allocate.
pub trait FallibleString {
    /// A text after the own one.
    fn fallible_push_str(&mut self, text: &str) -> Result<(), AllocError>;
}

impl FallibleString for String {
    fn fallible_push_str(&mut self, text: &str) -> Result<(), AllocError> {
        self.try_reserve(text.len())?;
        self.push_str(text);
        Ok(())
    }
}

/// The calls of a text that allocate.
pub trait FallibleStr {
    /// The text, so many times.
    fn fallible_repeat(&self, count: usize) -> Result<String, AllocError>;

    /// The text with each occurrence of one text replaced by another.
    fn fallible_replace(&self, from: &str, to: &str) -> Result<String, AllocError>;
}

impl FallibleStr for str {
    fn fallible_repeat(&self, count: usize) -> Result<String, AllocError> {
        let mut text = String::new();
        for _ in 0..count {
            text.fallible_push_str(self)?;
        }
        Ok(text)
    }

    fn fallible_replace(&self, from: &str, to: &str) -> Result<String, AllocError> {
        let mut text = String::new();
        for (number, part) in self.split(from).enumerate() {
            text.fallible_push_str(if number > 0 { to } else { "" })?;
            text.fallible_push_str(part)?;
        }
        Ok(text)
    }
}

/// A text that asks for its memory before it grows.
struct Growing<'a>(&'a mut String);

impl fmt::Write for Growing<'_> {
    fn write_str(&mut self, text: &str) -> fmt::Result {
        self.0.fallible_push_str(text).map_err(|_| fmt::Error)
    }
}

/// What values are printed to.
pub trait FallibleWrite {
    /// Why a text can't be written.
    type Error;

    /// Writes a text.
    fn fallible_write_fmt(&mut self, text: fmt::Arguments<'_>) -> Result<(), Self::Error>;
}

impl FallibleWrite for fmt::Formatter<'_> {
    type Error = fmt::Error;

    fn fallible_write_fmt(&mut self, text: fmt::Arguments<'_>) -> fmt::Result {
        self.write_fmt(text)
    }
}

impl FallibleWrite for String {
    type Error = AllocError;

    fn fallible_write_fmt(&mut self, text: fmt::Arguments<'_>) -> Result<(), AllocError> {
        fmt::write(&mut Growing(self), text).map_err(|_| AllocError)
    }
}

/// The text that a value prints.
pub trait FallibleToString: fmt::Display {
    /// The text, in memory of its own.
    fn fallible_to_string(&self) -> Result<String, AllocError> {
        let mut text = String::new();
        text.fallible_write_fmt(format_args!("{self}"))?;
        Ok(text)
    }
}

impl<T: fmt::Display> FallibleToString for T {}

/// Writes a text to what values are printed to.
#[doc(hidden)]
#[macro_export]
macro_rules! fallible_write {
    ($to:expr, $($text:tt)*) => {
        $crate::memory::FallibleWrite::fallible_write_fmt(&mut *$to, ::core::format_args!($($text)*))
    };
}

/// A text of values.
#[doc(hidden)]
#[macro_export]
macro_rules! fallible_format {
    ($($text:tt)*) => {
        $crate::memory::FallibleToString::fallible_to_string(&::core::format_args!($($text)*))
    };
}

/// A list of items.
#[doc(hidden)]
#[macro_export]
macro_rules! fallible_vec {
    ($($item:expr),* $(,)?) => {
        $crate::memory::FallibleIterator::fallible_collect(::core::iter::IntoIterator::into_iter([$($item),*]))
    };
}
