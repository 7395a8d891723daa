// Made by `rust/erase` of `crates/nd_items/src/iterating.rt`: edit that.
//! The items of an array one after another, each lent, without a list of them.

use crate::lent::nd_access::{LentRow, LentRowsOf, Reader, RowByRow};
use crate::memory::prelude::Vec;
use crate::ndarray_layout::{KeptAxes, Lengths, LentAxes, Order, PlacesOf, Row, SlowerAxes, Strided};
use core::iter::FusedIterator;

/// The items of an array that are still to come, in row-major order of their indices, from both ends, each lent: `Iter`
/// where the view is borrowed, `ViewIter` where the iterator has it.
pub struct IterOf<'a, T, A: SlowerAxes> {
    reader: Reader<'a, T>,
    places: PlacesOf<A>,
}

/// A copy, of which neither moves the other. Panics where an allocation fails, never for at most 4 axes. Not proved.
impl<'a, T, A: SlowerAxes> Clone for IterOf<'a, T, A>
where
    A: Clone,
{
    fn clone(&self) -> Self {
        IterOf { reader: Clone::clone(&self.reader), places: Clone::clone(&self.places) }
    }
}

/// The items of an array that are still to come, in row-major order of their indices, from both ends, each lent.
pub type Iter<'a, T> = IterOf<'a, T, LentAxes<'a>>;

/// The items of an array that are still to come, in row-major order of their indices, from both ends, each lent for as
/// long as the data is: a function that is handed an `ArrayView` may return this. ndarray's `Iter`.
pub type ViewIter<'a, T, D> = IterOf<'a, T, KeptAxes<D>>;

impl<'a, T> Iter<'a, T> {
    /// The items of all indices of a view, in row-major order.
    ///
    /// `[2]`, `[-1]` from 1 over 7 8 9: 8 7. The project's own.
    ///
    /// # Conditions
    ///
    /// The caller ensures that each place of it has an item. This call panics where an index lies past the items; to
    /// see that takes time in proportion to the count of axes.
    ///
    /// # Examples
    ///
    /// ```
    /// use ndarray_layout::{CanIndexCheckMode, Iter, Ix1, LayoutError, Strided, unsigned};
    ///
    /// # fn main() -> Result<(), LayoutError> {
    /// let view = Strided::from_parts(1, Ix1(2), Ix1(unsigned(-1)), 1, 3, CanIndexCheckMode::ReadOnly)?;
    /// let items = Iter::new(&view, &[7, 8, 9]);
    /// assert_eq!(items.len(), 2);
    /// assert_eq!(items.copied().collect::<Vec<i32>>(), [8, 7]);
    /// # Ok(())
    /// # }
    /// ```
    ///
    /// <details><summary>Contract (proved)</summary>
    ///
    /// ```text
    /// requires HasItems (length items.now) view.now
    /// ensures result ≡ map (item_at_place items.now) (view_places RowMajor view.now)
    /// ```
    /// [How to read it](crate::contracts)
    /// </details>
    #[inline]
    #[must_use]
    pub fn new<D: Lengths>(view: &'a Strided<D>, items: &'a [T]) -> Self {
        assert!(crate::arrays::has_items(view, items.len()), "an index of the view is past the items");
        IterOf::of_reader(Reader::of_slice(items), view.iter_places(Order::RowMajor))
    }
}

/// A row, lent; `None` of none.
///
/// # Conditions
///
/// The caller ensures that it has an item at each place. Otherwise the behaviour is undefined.
///
/// <details><summary>Contract (proved)</summary>
///
/// ```text
/// requires IfSome row (IsRowRead reader.now.marks (length reader.now.items))
/// ensures result ≡ option_map (row_of reader.now.items) row
/// ```
/// [How to read it](crate::contracts)
/// </details>
#[inline(always)]
fn lent_row<'a, T>(reader: &Reader<'a, T>, row: Option<Row>) -> Option<LentRow<'a, T>> {
    let row = row?;
    Some(LentRow { reader: reader.copied(), row })
}

impl<'a, T, A: SlowerAxes> IterOf<'a, T, A> {
    /// The items at places, which the caller ensures to have marks.
    ///
    /// <details><summary>Contract (proved)</summary>
    ///
    /// ```text
    /// requires AreRead reader.marks (length reader.items) places
    /// ensures result ≡ map (item_at_place reader.entry.items) places
    /// ```
    /// [How to read it](crate::contracts)
    /// </details>
    #[inline]
    pub(in crate::lent) fn of_reader(reader: Reader<'a, T>, places: PlacesOf<A>) -> Self {
        IterOf { reader, places }
    }

    /// Skips the next `count` items, or all that remain.
    ///
    /// Takes no memory, and no time for each item (`PlacesOf::advance`).
    ///
    /// Of 8 7, after one item: 7. What `nth` of std's iterators skips one by one.
    ///
    /// # Examples
    ///
    /// ```
    /// use ndarray_layout::{ArrayView, Ix2, LayoutError};
    ///
    /// # fn main() -> Result<(), LayoutError> {
    /// let table = ArrayView::from_shape(Ix2(2, 2), &[5, 6, 7, 8])?;
    /// let mut left = table.iter();
    /// left.advance(3);
    /// assert_eq!((left.next(), left.next()), (Some(&8), None));
    /// # Ok(())
    /// # }
    /// ```
    /// ```
    /// use ndarray_layout::{ArrayView, Ix2, LayoutError};
    ///
    /// # fn main() -> Result<(), LayoutError> {
    /// let table = ArrayView::from_shape(Ix2(2, 2), &[5, 6, 7, 8])?;
    /// let mut left = table.into_iter();
    /// left.advance(3);
    /// assert_eq!((left.next(), left.next()), (Some(&8), None));
    /// # Ok(())
    /// # }
    /// ```
    ///
    /// <details><summary>Contract (proved)</summary>
    ///
    /// ```text
    /// ensures self.new ≡ drop count self.old
    /// ```
    /// [How to read it](crate::contracts)
    /// </details>
    #[inline]
    pub fn advance(&mut self, count: usize) {
        self.places.advance(count);
    }

    /// Skips the last `count` items, or all that remain.
    ///
    /// Takes no memory, and no time for each item (`PlacesOf::advance_back`).
    ///
    /// Of 8 7, without the last item: 8. What `nth_back` of std's iterators skips one by one.
    ///
    /// # Examples
    ///
    /// ```
    /// use ndarray_layout::{ArrayView, Ix2, LayoutError};
    ///
    /// # fn main() -> Result<(), LayoutError> {
    /// let table = ArrayView::from_shape(Ix2(2, 2), &[5, 6, 7, 8])?;
    /// let mut left = table.iter();
    /// left.advance_back(3);
    /// assert_eq!((left.next_back(), left.next_back()), (Some(&5), None));
    /// # Ok(())
    /// # }
    /// ```
    /// ```
    /// use ndarray_layout::{ArrayView, Ix2, LayoutError};
    ///
    /// # fn main() -> Result<(), LayoutError> {
    /// let table = ArrayView::from_shape(Ix2(2, 2), &[5, 6, 7, 8])?;
    /// let mut left = table.into_iter();
    /// left.advance_back(3);
    /// assert_eq!((left.next_back(), left.next_back()), (Some(&5), None));
    /// # Ok(())
    /// # }
    /// ```
    ///
    /// <details><summary>Contract (proved)</summary>
    ///
    /// ```text
    /// ensures self.new ≡ take (length self.old - count) self.old
    /// ```
    /// [How to read it](crate::contracts)
    /// </details>
    #[inline]
    pub fn advance_back(&mut self, count: usize) {
        self.places.advance_back(count);
    }

    /// The items that are left as rows: what is left of the row in progress, the rows that haven't begun, and what is left of the row
    /// in progress at the back.
    ///
    /// <details><summary>Contract (proved)</summary>
    ///
    /// ```text
    /// ensures self.entry ≡ (items_of_row result.0 ++ rows_items result.1) ++ items_of_row result.2
    /// ```
    /// [How to read it](crate::contracts)
    /// </details>
    #[inline(always)]
    pub(in crate::lent) fn into_rows_left(
        self,
    ) -> (Option<LentRow<'a, T>>, LentRowsOf<'a, T, A>, Option<LentRow<'a, T>>) {
        let IterOf { reader, places } = self;
        let (first, rows, last) = places.into_rows_left();
        let (first, last) = (lent_row(&reader, first), lent_row(&reader, last));
        (first, LentRowsOf::new(reader, rows), last)
    }
}

impl<'a, T, A: SlowerAxes> RowByRow<'a, T> for IterOf<'a, T, A> {
    #[inline]
    fn next_row(&mut self) -> Option<LentRow<'a, T>> {
        let row = self.places.next_row()?;
        Some(LentRow { reader: self.reader.copied(), row })
    }

    #[inline]
    fn next_row_back(&mut self) -> Option<LentRow<'a, T>> {
        let row = self.places.next_row_back()?;
        Some(LentRow { reader: self.reader.copied(), row })
    }
}

impl<'a, T, A: SlowerAxes> Iterator for IterOf<'a, T, A> {
    type Item = &'a T;

    #[inline(always)]
    fn next(&mut self) -> Option<&'a T> {
        let place = self.places.next()?;
        Some(self.reader.get(place))
    }

    #[inline]
    fn size_hint(&self) -> (usize, Option<usize>) {
        let left = self.len();
        (left, Some(left))
    }

    crate::arrays::fold_lent!();
}

impl<'a, T, A: SlowerAxes> DoubleEndedIterator for IterOf<'a, T, A> {
    #[inline]
    fn next_back(&mut self) -> Option<&'a T> {
        let place = self.places.next_back()?;
        Some(self.reader.get(place))
    }

    crate::arrays::rfold_lent!();
}

impl<T, A: SlowerAxes> ExactSizeIterator for IterOf<'_, T, A> {
    #[inline]
    fn len(&self) -> usize {
        self.places.len()
    }
}

impl<T, A: SlowerAxes> FusedIterator for IterOf<'_, T, A> {}
