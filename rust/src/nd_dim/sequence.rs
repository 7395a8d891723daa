// Made by `rust/erase` of `crates/nd_dim/src/sequence.rt`: edit that.
//! The numbers of a dimension or a slice, one for each axis, counted from the first axis on or from the last one back.

use crate::nd_base::Lengths;
use core::ops::Index;
use core::ops::IndexMut;

/// The numbers of a dimension or a slice, that of the first axis first. ndarray's `Forward`.
#[derive(Debug)]
pub struct Forward<D>(pub D);

/// The numbers of a dimension or a slice, that of the last axis first. ndarray's `Reverse`.
#[derive(Debug)]
pub struct Reverse<D>(pub D);

/// A list of numbers that are read by their position. ndarray's `Sequence`.
///
/// Sealed: no type outside this package implements it.
pub trait Sequence: Index<usize, Output = usize> + crate::sealed::Sealed {
    /// The count of numbers. ndarray's `len`.
    ///
    /// <details><summary>Contract (proved)</summary>
    ///
    /// ```text
    /// ensures result ≡ length (items self.now)
    /// ```
    /// [How to read it](crate::contracts)
    /// </details>
    #[must_use]
    fn len(&self) -> usize;
}

/// The number at a position of a sequence.
///
/// The project's own.
///
/// # Conditions
///
/// The caller ensures that there is one. Otherwise this call or a later one panics or returns unspecified values.
///
/// <details><summary>Contract (proved)</summary>
///
/// ```text
/// requires k < length (S.items items.now)
/// ensures result ≡ slice_index (S.items items.now) k
/// ```
/// [How to read it](crate::contracts)
/// </details>
#[must_use]
#[inline(always)]
pub fn item<S: Sequence>(items: &S, k: usize) -> usize {
    items[k]
}

/// A list of numbers that are read and written by their position. ndarray's `SequenceMut`.
///
/// Sealed: no type outside this package implements it.
pub trait SequenceMut: Sequence + IndexMut<usize> + crate::sealed::Sealed {
    /// Writes the number at a position.
    ///
    /// A write by index does so as well.
    ///
    /// The project's own.
    ///
    /// # Conditions
    ///
    /// The caller ensures that there is one. Otherwise this call or a later one panics or returns unspecified values.
    ///
    /// <details><summary>Contract (proved)</summary>
    ///
    /// ```text
    /// requires k < length (Self.items self.old)
    /// ensures items: Self.items self.new ≡ slice_set (Self.items self.old) k item
    /// ensures target: same_target self.old self.new
    /// ```
    /// [How to read it](crate::contracts)
    /// </details>
    fn set(&mut self, k: usize, item: usize);
}

impl Index<usize> for Forward<&[usize]> {
    type Output = usize;

    #[inline(always)]
    fn index(&self, k: usize) -> &usize {
        &self.0[k]
    }
}

impl Sequence for Forward<&[usize]> {
    #[inline(always)]
    fn len(&self) -> usize {
        self.0.len()
    }
}

impl Index<usize> for Reverse<&[usize]> {
    type Output = usize;

    #[inline(always)]
    fn index(&self, k: usize) -> &usize {
        &self.0[self.0.len() - 1 - k]
    }
}

impl Sequence for Reverse<&[usize]> {
    #[inline(always)]
    fn len(&self) -> usize {
        self.0.len()
    }
}

impl Index<usize> for Forward<&mut [usize]> {
    type Output = usize;

    #[inline(always)]
    fn index(&self, k: usize) -> &usize {
        let items = &*self.0;
        &items[k]
    }
}

impl IndexMut<usize> for Forward<&mut [usize]> {
    #[inline(always)]
    fn index_mut(&mut self, k: usize) -> &mut usize {
        let items = &mut *self.0;
        &mut items[k]
    }
}

impl Sequence for Forward<&mut [usize]> {
    #[inline(always)]
    fn len(&self) -> usize {
        self.0.len()
    }
}

impl SequenceMut for Forward<&mut [usize]> {
    #[inline(always)]
    fn set(&mut self, k: usize, item: usize) {
        self.0[k] = item;
    }
}

impl Index<usize> for Reverse<&mut [usize]> {
    type Output = usize;

    #[inline(always)]
    fn index(&self, k: usize) -> &usize {
        let items = &*self.0;
        &items[items.len() - 1 - k]
    }
}

impl IndexMut<usize> for Reverse<&mut [usize]> {
    #[inline(always)]
    fn index_mut(&mut self, k: usize) -> &mut usize {
        let items = &mut *self.0;
        &mut items[items.len() - 1 - k]
    }
}

impl Sequence for Reverse<&mut [usize]> {
    #[inline(always)]
    fn len(&self) -> usize {
        self.0.len()
    }
}

impl SequenceMut for Reverse<&mut [usize]> {
    #[inline(always)]
    fn set(&mut self, k: usize, item: usize) {
        let items = &mut *self.0;
        items[items.len() - 1 - k] = item;
    }
}

impl<D: Lengths> Index<usize> for Forward<&D> {
    type Output = usize;

    #[inline(always)]
    fn index(&self, k: usize) -> &usize {
        &self.0.slice()[k]
    }
}

impl<D: Lengths> Sequence for Forward<&D> {
    #[inline(always)]
    fn len(&self) -> usize {
        self.0.ndim()
    }
}

impl<D: Lengths> Index<usize> for Forward<&mut D> {
    type Output = usize;

    #[inline(always)]
    fn index(&self, k: usize) -> &usize {
        &self.0.slice()[k]
    }
}

impl<D: Lengths> IndexMut<usize> for Forward<&mut D> {
    #[inline(always)]
    fn index_mut(&mut self, k: usize) -> &mut usize {
        &mut self.0.slice_mut()[k]
    }
}

impl<D: Lengths> Sequence for Forward<&mut D> {
    #[inline(always)]
    fn len(&self) -> usize {
        self.0.ndim()
    }
}

impl<D: Lengths> SequenceMut for Forward<&mut D> {
    #[inline(always)]
    fn set(&mut self, k: usize, item: usize) {
        self.0.slice_mut()[k] = item;
    }
}

impl<D: Lengths> Index<usize> for Reverse<&D> {
    type Output = usize;

    #[inline(always)]
    fn index(&self, k: usize) -> &usize {
        let items = self.0.slice();
        &items[items.len() - 1 - k]
    }
}

impl<D: Lengths> Sequence for Reverse<&D> {
    #[inline(always)]
    fn len(&self) -> usize {
        self.0.ndim()
    }
}

impl<D: Lengths> Index<usize> for Reverse<&mut D> {
    type Output = usize;

    #[inline(always)]
    fn index(&self, k: usize) -> &usize {
        let items = self.0.slice();
        &items[items.len() - 1 - k]
    }
}

impl<D: Lengths> IndexMut<usize> for Reverse<&mut D> {
    #[inline(always)]
    fn index_mut(&mut self, k: usize) -> &mut usize {
        let items = self.0.slice_mut();
        &mut items[items.len() - 1 - k]
    }
}

impl<D: Lengths> Sequence for Reverse<&mut D> {
    #[inline(always)]
    fn len(&self) -> usize {
        self.0.ndim()
    }
}

impl<D: Lengths> SequenceMut for Reverse<&mut D> {
    #[inline(always)]
    fn set(&mut self, k: usize, item: usize) {
        let items = self.0.slice_mut();
        items[items.len() - 1 - k] = item;
    }
}
