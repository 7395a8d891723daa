//! A list that lies in the value itself up to a count of items: what the sources use of the kit's crate `smallvec`. The
//! package trusts it.

use crate::memory::{AllocError, FallibleVec};
use alloc::vec::Vec;

/// How many items lie in the value itself: a type of five values, so that rustc tests no bound of them, and keeps in the
/// same word that there are more. It is a whole word, so that all that is moved lies in words.
#[derive(Clone, Copy)]
#[repr(usize)]
enum Count {
    Zero,
    One,
    Two,
    Three,
    Four,
}

impl Count {
    /// The count of a number up to four.
    #[inline]
    fn of(len: usize) -> Self {
        [Count::Zero, Count::One, Count::Two, Count::Three, Count::Four][len]
    }
}

/// The items of a list: up to four of them in the value itself, more of them in memory.
pub(crate) struct SmallVec<T, const N: usize>(Storage<T>);

enum Storage<T> {
    Inline([T; 4], Count),
    Heap(Vec<T>),
}

impl<T: Copy + Default> SmallVec<T, 4> {
    /// No items.
    #[inline]
    pub(crate) fn new() -> Self {
        Self::from_buf_and_len([T::default(); 4], 0)
    }

    /// The first `len` items of an array.
    #[inline]
    pub(crate) fn from_buf_and_len(items: [T; 4], len: usize) -> Self {
        SmallVec(Storage::Inline(items, Count::of(len)))
    }

    /// The items of an array.
    #[inline]
    pub(crate) fn from_buf(items: [T; 4]) -> Self {
        SmallVec(Storage::Inline(items, Count::Four))
    }

    /// The items of a vector, whose memory is kept.
    pub(crate) fn from_vec(items: Vec<T>) -> Self {
        SmallVec(Storage::Heap(items))
    }

    /// One item, so many times.
    pub(crate) fn from_elem(item: T, len: usize) -> Result<Self, AllocError> {
        if len <= 4 {
            return Ok(Self::from_buf_and_len([item; 4], len));
        }
        let mut items = Vec::fallible_with_capacity(len)?;
        items.resize(len, item);
        Ok(SmallVec(Storage::Heap(items)))
    }

    /// The items, in order.
    #[inline]
    pub(crate) fn as_slice(&self) -> &[T] {
        match &self.0 {
            Storage::Inline(items, count) => &items[..*count as usize],
            Storage::Heap(items) => items,
        }
    }

    /// The items, to be written.
    #[inline]
    pub(crate) fn as_mut_slice(&mut self) -> &mut [T] {
        match &mut self.0 {
            Storage::Inline(items, count) => &mut items[..*count as usize],
            Storage::Heap(items) => items,
        }
    }

    /// The item of a number, to be written.
    pub(crate) fn get_mut(&mut self, number: usize) -> Option<&mut T> {
        self.as_mut_slice().get_mut(number)
    }

    /// No items, with room for so many.
    pub(crate) fn fallible_with_capacity(capacity: usize) -> Result<Self, AllocError> {
        if capacity <= 4 {
            return Ok(Self::new());
        }
        Ok(SmallVec(Storage::Heap(Vec::fallible_with_capacity(capacity)?)))
    }

    /// The items of a slice: more than four of them, so that this is left out of line.
    #[cold]
    #[inline(never)]
    pub(crate) fn fallible_from_slice(items: &[T]) -> Result<Self, AllocError> {
        let mut list = Self::fallible_with_capacity(items.len())?;
        list.fallible_extend_from_slice(items)?;
        Ok(list)
    }

    /// One item more.
    pub(crate) fn fallible_push(&mut self, item: T) -> Result<(), AllocError> {
        self.fallible_extend_from_slice(&[item])
    }

    /// The items of a slice after the own ones.
    pub(crate) fn fallible_extend_from_slice(&mut self, others: &[T]) -> Result<(), AllocError> {
        match &mut self.0 {
            Storage::Heap(items) => return items.fallible_extend_from_slice(others),
            Storage::Inline(items, count) => {
                let (len, whole) = (*count as usize, *count as usize + others.len());
                if let Some(room) = items.get_mut(len..whole) {
                    room.copy_from_slice(others);
                    *count = Count::of(whole);
                    return Ok(());
                }
                let mut moved = Vec::fallible_with_capacity(whole)?;
                moved.extend_from_slice(&items[..len]);
                moved.extend_from_slice(others);
                self.0 = Storage::Heap(moved);
            }
        }
        Ok(())
    }
}

#[cfg(test)]
mod tests {
    use super::{SmallVec, Storage};

    type List = SmallVec<usize, 4>;

    /// Whether the items lie in memory.
    fn is_spilled(list: &List) -> bool {
        matches!(list.0, Storage::Heap(_))
    }

    #[test]
    fn up_to_four_items_take_no_memory() {
        for len in 0..6 {
            let mut grown = List::new();
            for _ in 0..len {
                grown.fallible_push(7).expect("room");
            }
            let made = List::from_elem(7, len).expect("room");
            let copied = List::fallible_from_slice(grown.as_slice()).expect("room");
            let room = List::fallible_with_capacity(len).expect("room");
            for list in [&made, &copied, &room, &grown] {
                assert_eq!(is_spilled(list), len > 4, "{len}");
            }
            assert_eq!((made.as_slice(), copied.as_slice()), (grown.as_slice(), grown.as_slice()));
        }
    }
}
