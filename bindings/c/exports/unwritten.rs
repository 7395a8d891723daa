//! What C lends to be written: it may hold nothing yet, and no reference to a number leads to it before it is written.

pub use core::mem::MaybeUninit;

/// Items as what may be copied over such a list.
pub fn as_unwritten<T>(items: &[T]) -> &[MaybeUninit<T>] {
    // SAFETY: an item is also one that may hold nothing, of the same size.
    unsafe { &*(items as *const [T] as *const [MaybeUninit<T>]) }
}

/// A list with a 0 in each place, for a call that writes the whole of it.
pub fn zeroed(list: &mut [MaybeUninit<usize>]) -> &mut [usize] {
    list.fill(MaybeUninit::new(0));
    // SAFETY: each place has been written.
    unsafe { &mut *(list as *mut [MaybeUninit<usize>] as *mut [usize]) }
}
