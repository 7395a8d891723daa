//! What the iterators of the sources get that leave out at once what comes before: an `nth`, and an `nth_back`.

/// Of iterators that leave out at once what comes before.
macro_rules! skip {
    () => {
        /// What `n + 1` calls of `next` return last; the others are left out at once. Not proved.
        fn nth(&mut self, n: usize) -> Option<Self::Item> {
            self.advance(n);
            self.next()
        }
    };
}
pub(crate) use skip;

/// The same from the back.
macro_rules! skip_back {
    () => {
        /// What `n + 1` calls of `next_back` return last; the others are left out at once. Not proved.
        fn nth_back(&mut self, n: usize) -> Option<Self::Item> {
            self.advance_back(n);
            self.next_back()
        }
    };
}
pub(crate) use skip_back;
