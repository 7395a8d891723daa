// Made by `rust/erase` of `crates/nd_access/src/cells.rt`: edit that.
//! The right to read and write some elements of a slice, whatever lies between them.

#![allow(unsafe_code, reason = "proved: a comment says by which clauses")]

mod readers;
mod parts;
mod swapping;
mod taken;

use core::marker::PhantomData;
use core::slice::from_raw_parts;
use core::slice::from_raw_parts_mut;

/// The right to read and write some elements of a slice, at the price of a pointer: those that have a mark.
///
/// The project's own.
pub struct Cells<'a, T> {
    pub(in crate::lent) first: *mut T,
    pub(in crate::lent) mark: PhantomData<&'a mut T>,
}

// SAFETY: no other `Cells` has a mark that this one has (`all` of `all_of` and of `take_part`), so it is sent as a
// `&mut [T]` of its elements would be.
unsafe impl<T: Send> Send for Cells<'_, T> {}

// SAFETY: what is shared only reads (`get`), as a `&[T]` of its elements would.
unsafe impl<T: Sync> Sync for Cells<'_, T> {}

impl<'a, T> Cells<'a, T> {
    /// The right to all elements of a slice, under the name of its reference.
    ///
    /// Of 7 8 9: each of them. The project's own.
    #[inline]
    pub fn all_of(items: &'a mut [T]) -> Self {
        Cells { first: items.as_mut_ptr(), mark: PhantomData }
    }

    /// The element at a place, counted in elements from the first of the slice, to be read.
    ///
    /// Of 7 8 9, place 1 is 8. The project's own.
    ///
    /// # Conditions
    ///
    /// The caller ensures that it has a mark. Otherwise the behaviour is undefined.
    ///
    /// <details><summary>Contract (proved)</summary>
    ///
    /// ```text
    /// requires IsTrue (get_or self.now.marks place false)
    /// ensures slice_get self.now.items place ≡ Some result.now
    /// ```
    /// [How to read it](crate::contracts)
    /// </details>
    #[inline]
    pub fn get(&self, place: usize) -> &T {
        // SAFETY: the place has a mark, which the caller ensures; so it is one of the slice that was lent (`all_of`),
        // and no other `Cells` has its mark (`all` of `take_part`). While the result is in use this one is borrowed, so
        // nothing writes the element.
        unsafe { core::ptr::NonNull::from(&*self.first.add(place)).as_ref() }
    }

    /// Those that have a mark, to be read by as many as like while the right is borrowed. Takes no memory.
    ///
    /// Of 7 8 9 with the first and third marked: 7 and 9. The project's own.
    ///
    /// <details><summary>Contract (proved)</summary>
    ///
    /// ```text
    /// ensures all: (result.items ≡ self.now.items) × (result.marks ≡ self.now.marks)
    ///     × (length self.now.items ≡ length self.now.marks)
    /// ```
    /// [How to read it](crate::contracts)
    /// </details>
    #[inline]
    pub fn shared(&self) -> Reader<'_, T> {
        Reader { first: self.first, mark: PhantomData }
    }

    /// The element at a place, counted in elements from the first of the slice, to be written.
    ///
    /// Of 7 8 9, place 1 is 8. The project's own.
    ///
    /// # Conditions
    ///
    /// The caller ensures that it has a mark. Otherwise the behaviour is undefined.
    ///
    /// <details><summary>Contract (proved)</summary>
    ///
    /// ```text
    /// requires IsTrue (get_or self.old.marks place false)
    /// ensures value: (slice_get self.old.items place ≡ Some result.now) × (length self.old.items ≡ length self.old.marks)
    /// ```
    /// [How to read it](crate::contracts)
    /// </details>
    #[inline]
    pub fn item_mut(&mut self, place: usize) -> &mut T {
        // SAFETY: the place has a mark, which the caller ensures; so it is one of the slice that was lent (`all_of`),
        // and no other `Cells` has its mark (`all` of `take_part`). While the result is in use the part is borrowed, so
        // nothing else reads or writes the element.
        unsafe { core::ptr::NonNull::from(&mut *self.first.add(place)).as_mut() }
    }

    /// So many elements from a place on, as a slice to be written.
    ///
    /// Of 7 8 9, two from place 1 on: 8 and 9. The project's own.
    ///
    /// # Conditions
    ///
    /// The caller ensures that each of them has a mark. Otherwise the behaviour is undefined.
    ///
    /// <details><summary>Contract (proved)</summary>
    ///
    /// ```text
    /// requires IsTrue (are_within (span_of start len self.old.marks) self.old.marks) × (start + len ≤ length self.old.marks)
    /// ensures value: (result.now ≡ take len (drop start self.old.items)) × (start + len ≤ length self.old.items)
    /// ```
    /// [How to read it](crate::contracts)
    /// </details>
    #[inline]
    pub fn slice_mut(&mut self, start: usize, len: usize) -> &mut [T] {
        // SAFETY: each of these places has a mark, which the caller ensures; so they are those of the slice that was
        // lent (`all_of`), and no other `Cells` has one of their marks (`all` of `take_part`). While the result is in
        // use this one is borrowed, so nothing else reads or writes the elements.
        unsafe { core::ptr::NonNull::from(from_raw_parts_mut(self.first.add(start), len)).as_mut() }
    }

    /// The right to some of the elements, for as long as the whole is lent; the right to the others stays. Both may be
    /// used at once, and in threads.
    ///
    /// Of 7 8 9 with the first and third chosen: one may write 7 and 9, the other 8. The project's own.
    ///
    /// # Conditions
    ///
    /// The caller ensures that the chosen ones have a mark; a proof says which they are, by the value that is given,
    /// and no code reads that. Otherwise the behaviour is undefined.
    ///
    /// <details><summary>Contract (proved)</summary>
    ///
    /// ```text
    /// requires IsTrue (are_within chosen self.old.marks)
    /// ensures all: (result.items ≡ self.old.items) × (self.new.items ≡ self.old.items)
    ///     × (result.marks ≡ chosen) × (self.new.marks ≡ without chosen self.old.marks)
    /// ```
    /// [How to read it](crate::contracts)
    /// </details>
    #[inline]
    pub fn take_part<V>(&mut self, _by: &V) -> Self {
        Cells { first: self.first, mark: PhantomData }
    }

    /// So many elements from a place on, as a slice for as long as the whole is lent; the right to the others stays.
    ///
    /// Of 7 8 9, two from place 1 on: 8 and 9; 7 stays. The project's own.
    ///
    /// # Conditions
    ///
    /// The caller ensures that each of them has a mark. Otherwise the behaviour is undefined.
    ///
    /// <details><summary>Contract (proved)</summary>
    ///
    /// ```text
    /// requires IsTrue (are_within (span_of start len self.old.marks) self.old.marks) × (start + len ≤ length self.old.marks)
    /// ensures all: (result.now ≡ take len (drop start self.old.items)) × (self.new.items ≡ self.old.items)
    ///     × (self.new.marks ≡ without (span_of start len self.old.marks) self.old.marks)
    ///     × (start + len ≤ length self.old.items)
    /// ```
    /// [How to read it](crate::contracts)
    /// </details>
    #[inline]
    pub fn take_slice(&mut self, start: usize, len: usize) -> &'a mut [T] {
        // SAFETY: each of these places has a mark, which the caller ensures, and has none afterwards (`all`, here). So
        // they are those of the slice that was lent (`all_of`), and no call of this `Cells` or of another reads or
        // writes them again.
        unsafe { core::ptr::NonNull::from(from_raw_parts_mut(self.first.add(start), len)).as_mut() }
    }
}

/// Some elements of a slice, lent to be read, at the price of a pointer: those that have a mark.
///
/// The project's own.
pub struct Reader<'s, T> {
    first: *const T,
    mark: PhantomData<&'s T>,
}

/// Not proved.
impl<'s, T> Clone for Reader<'s, T> {
    fn clone(&self) -> Self {
        *self
    }
}

/// Not proved.
impl<'s, T> Copy for Reader<'s, T> {}

// SAFETY: it only reads (`get`, `slice`), so it is sent as a `&[T]` of its elements would be.
unsafe impl<T: Sync> Send for Reader<'_, T> {}

// SAFETY: what is shared only reads (`get`, `slice`), as a `&[T]` of its elements would.
unsafe impl<T: Sync> Sync for Reader<'_, T> {}

impl<'s, T> Reader<'s, T> {
    /// The element at a place, counted in elements from the first of the slice.
    ///
    /// Of 7 8 9, place 1 is 8. The project's own.
    ///
    /// # Conditions
    ///
    /// The caller ensures that it has a mark. Otherwise the behaviour is undefined.
    ///
    /// <details><summary>Contract (proved)</summary>
    ///
    /// ```text
    /// requires IsTrue (get_or self.now.marks place false)
    /// ensures slice_get self.now.items place ≡ Some result.now
    /// ```
    /// [How to read it](crate::contracts)
    /// </details>
    #[inline]
    pub fn get(&self, place: usize) -> &'s T {
        // SAFETY: the place has a mark, which the caller ensures; so it is one of the slice that was lent, and the
        // `Cells` that has its mark is borrowed for as long as the result is in use (`shared`). So nothing writes the
        // element.
        unsafe { core::ptr::NonNull::from(&*self.first.add(place)).as_ref() }
    }

    /// So many elements from a place on, as a slice.
    ///
    /// Of 7 8 9, two from place 1 on: 8 and 9. The project's own.
    ///
    /// # Conditions
    ///
    /// The caller ensures that each of them has a mark. Otherwise the behaviour is undefined.
    ///
    /// <details><summary>Contract (proved)</summary>
    ///
    /// ```text
    /// requires IsTrue (are_within (span_of start len self.now.marks) self.now.marks) × (start + len ≤ length self.now.marks)
    /// ensures all: (result.now ≡ take len (drop start self.now.items)) × (start + len ≤ length self.now.items)
    /// ```
    /// [How to read it](crate::contracts)
    /// </details>
    #[inline]
    pub fn slice(&self, start: usize, len: usize) -> &'s [T] {
        // SAFETY: each of these places has a mark, which the caller ensures; so they are those of the slice that was
        // lent, and the `Cells` that has their marks is borrowed for as long as the result is in use (`shared`). So
        // nothing writes the elements.
        unsafe { core::ptr::NonNull::from(from_raw_parts(self.first.add(start), len)).as_ref() }
    }
}
