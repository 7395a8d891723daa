//! What the iterators of the sources get beside their `next`: a fold that takes row after row, and an `nth` that leaves out rows. Items that are
//! lent are folded by `fold_rows_left`, `fold_rest` and `rfold_rest` of the sources, which are proved.

/// Of the iterators over items that are lent: what folds them, of what is asked of the iterator first.
macro_rules! fold_lent {
    () => {
        crate::arrays::fold_lent!(fold_rows_left into_rows_left);
    };
    ($fold:ident $($left:ident)?) => {
        crate::arrays::skip!();

        #[inline]
        fn count(self) -> usize {
            self.len()
        }

        #[inline]
        fn last(mut self) -> Option<&'a T> {
            self.next_back()
        }

        #[inline(always)]
        fn fold<B, F: FnMut(B, &'a T) -> B>(self, init: B, f: F) -> B {
            crate::lent::nd_loops::$fold(self$(.$left())?, init, f)
        }
    };
}
pub(crate) use fold_lent;

/// Of those of one row.
macro_rules! fold_row {
    () => {
        crate::arrays::fold_lent!(fold_rest);
    };
}
pub(crate) use fold_row;

/// Of the same, from the back.
macro_rules! rfold_lent {
    () => {
        crate::arrays::skip_back!();

        #[inline]
        fn rfold<B, F: FnMut(B, &'a T) -> B>(self, init: B, f: F) -> B {
            crate::lent::nd_loops::rfold_rest(self, init, f)
        }
    };
}
pub(crate) use rfold_lent;

/// Of `Items`.
macro_rules! fold_items {
    () => {
        /// What `n + 1` calls of `next` return last; rows are left out at once. Not proved.
        fn nth(&mut self, n: usize) -> Option<T> {
            self.lent.nth(n).copied()
        }

        /// What a loop over `next` returns; rows whose items follow one another are slices. Not proved.
        #[inline]
        fn fold<B, F: FnMut(B, T) -> B>(self, init: B, mut f: F) -> B {
            self.lent.fold(init, |total, item| f(total, *item))
        }

        /// What `collect` of std's iterators returns. The items are first listed row by row: this list becomes a `Vec` as it is, and any
        /// other collection is made of it. Panics where there is no memory for it. Not proved.
        fn collect<B: FromIterator<T>>(self) -> B {
            self.lent.into_list().expect(crate::OUT_OF_MEMORY).into_iter().collect()
        }
    };
}
pub(crate) use fold_items;

/// Of the iterators over items with their indices.
macro_rules! fold_indexed {
    () => {
        /// What a loop over `next` returns, row by row. Not proved.
        #[inline]
        fn fold<B, F: FnMut(B, Self::Item) -> B>(self, init: B, mut f: F) -> B {
            let (items, mut indices) = self.into_items_at();
            items.fold(init, |total, item| {
                let index = indices.take().ok().flatten().expect(OUT_OF_MEMORY);
                f(total, (index.into_pattern(), item))
            })
        }
    };
}
pub(crate) use fold_indexed;

/// Of `IterMut` and `PlacesOf`.
macro_rules! fold_by_rest {
    () => {
        crate::arrays::skip!();

        /// What a loop over `next` returns, by `fold_rest`, which is proved.
        #[inline]
        fn fold<B, F: FnMut(B, Self::Item) -> B>(self, init: B, f: F) -> B {
            self.fold_rest(init, f)
        }
    };
}
pub(crate) use fold_by_rest;
