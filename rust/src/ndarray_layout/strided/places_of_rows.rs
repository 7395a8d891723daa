// Made by `rust/erase` of `crates/ndarray_layout/src/strided/places_of_rows.rt`: edit that.
//! The places of a view one after another, from both ends, whatever has its rows.

use crate::ndarray_layout::strided::counted_places::CountedPlaces;
use crate::ndarray_layout::strided::rows::Row;
use crate::ndarray_layout::strided::rows_of::RowsOf;
use crate::ndarray_layout::strided::slower_axes::SlowerAxes;
use crate::ndarray_layout::strided::stretch_left::Stretch;
use core::iter::FusedIterator;

/// The places of a view that are still to come, in an order, from both ends: `Places` of `iter_places` and `IntoPlaces`
/// of `into_places`.
#[derive(Clone)]
pub struct PlacesOf<A: SlowerAxes> {
    // What is left where all places follow one another: a loop over them does nothing else.
    stretch: Option<Stretch>,
    // What is left otherwise.
    places: CountedPlaces<A>,
}

impl<A: SlowerAxes> PlacesOf<A> {
    /// All places of rows.
    ///
    /// <details><summary>Contract (proved)</summary>
    ///
    /// ```text
    /// requires in_bounds: All (IsInBounds (2 ^ 63)) (rows_places rows)
    /// requires some: All (λ row. 0 < row.len) rows
    /// requires few: length (rows_places rows) ≤ limit
    /// ensures result ≡ rows_places rows
    /// ```
    /// [How to read it](crate::contracts)
    /// </details>
    #[inline]
    pub(super) fn new(rows: RowsOf<A>) -> Self {
        let stretch = match rows.only() {
            Some(row) => Stretch::of_row(row),
            None => None,
        };
        PlacesOf { stretch, places: CountedPlaces::new(rows) }
    }

    /// Whether none is left.
    ///
    /// <details><summary>Contract (proved)</summary>
    ///
    /// ```text
    /// ensures IsTrue result ↔ (length self.now ≡ 0)
    /// ```
    /// [How to read it](crate::contracts)
    /// </details>
    #[inline]
    pub(super) fn has_ended(&self) -> bool {
        match &self.stretch {
            Some(stretch) => stretch.has_ended(),
            None => self.places.has_ended(),
        }
    }

    /// The places that come next and lie evenly, at once: what is left of the row in progress, or else the next row;
    /// `None` after the last place.
    ///
    /// Takes no memory. Costs as much as a place of `iter_places`, and of `into_places` a row (`into_joined_rows`).
    ///
    /// Of the places of `[2,3]` with strides `[5,1]` from 0, after one place: the row of 1 2, and then that of 5 6 7.
    /// The project's own.
    ///
    /// # Examples
    ///
    /// ```
    /// use ndarray_layout::{CanIndexCheckMode, Ix2, LayoutError, Order, Row, Strided};
    ///
    /// # fn main() -> Result<(), LayoutError> {
    /// let view = Strided::new(Ix2(2, 3), Ix2(5, 1), 1, 8, CanIndexCheckMode::ReadOnly)?;
    /// let mut places = view.iter_places(Order::RowMajor);
    /// assert_eq!(places.next(), Some(0));
    /// let numbers = |row: Row| (row.start, row.stride, row.len);
    /// assert_eq!(places.next_row().map(numbers), Some((1, 1, 2)));
    /// assert_eq!(places.next_row().map(numbers), Some((5, 1, 3)));
    /// assert!(places.next_row().is_none());
    /// # Ok(())
    /// # }
    /// ```
    ///
    /// <details><summary>Contract (proved)</summary>
    ///
    /// ```text
    /// ensures row: MatchOption result ((self.old ≡ []) × (self.new ≡ [])) (λ row. (0 < row.len)
    ///     × (self.old ≡ row_places row.start row.stride row.len ++ self.new))
    /// ensures row_is_view: IfSome result (λ row. IsView (row_view row))
    /// ```
    /// [How to read it](crate::contracts)
    /// </details>
    #[inline]
    #[must_use]
    pub fn next_row(&mut self) -> Option<Row> {
        match &mut self.stretch {
            Some(stretch) => stretch.take_row(),
            None => self.places.next_row(),
        }
    }

    /// The last places that lie evenly, at once: what is left of the row in progress at the back, or else the last row;
    /// `None` before the first place.
    ///
    /// Takes no memory. Costs as much as a place from the back of `iter_places`, and of `into_places` a row
    /// (`into_joined_rows`).
    ///
    /// Of the places of `[2,3]` with strides `[5,1]` from 0, without the last one: the row of 5 6, and then that of 0 1 2.
    /// The project's own.
    ///
    /// # Examples
    ///
    /// ```
    /// use ndarray_layout::{CanIndexCheckMode, Ix2, LayoutError, Order, Row, Strided};
    ///
    /// # fn main() -> Result<(), LayoutError> {
    /// let view = Strided::new(Ix2(2, 3), Ix2(5, 1), 1, 8, CanIndexCheckMode::ReadOnly)?;
    /// let mut places = view.iter_places(Order::RowMajor);
    /// assert_eq!(places.next_back(), Some(7));
    /// let numbers = |row: Row| (row.start, row.stride, row.len);
    /// assert_eq!(places.next_row_back().map(numbers), Some((5, 1, 2)));
    /// assert_eq!(places.next_row_back().map(numbers), Some((0, 1, 3)));
    /// assert!(places.next_row_back().is_none());
    /// # Ok(())
    /// # }
    /// ```
    ///
    /// <details><summary>Contract (proved)</summary>
    ///
    /// ```text
    /// ensures row: MatchOption result ((self.old ≡ []) × (self.new ≡ [])) (λ row. (0 < row.len)
    ///     × (self.old ≡ self.new ++ row_places row.start row.stride row.len))
    /// ensures row_is_view: IfSome result (λ row. IsView (row_view row))
    /// ```
    /// [How to read it](crate::contracts)
    /// </details>
    #[inline]
    #[must_use]
    pub fn next_row_back(&mut self) -> Option<Row> {
        match &mut self.stretch {
            Some(stretch) => stretch.take_row(),
            None => self.places.next_row_back(),
        }
    }

    /// The places that are left as rows: what is left of the row in progress, the rows that haven't begun, and what is left of the row
    /// in progress at the back. So a loop over the rows does nothing else.
    ///
    /// Takes no memory, and no time for each row.
    ///
    /// Of the places of `[3,3]` with strides `[5,1]` from 0, after one place from each end: the row of 1 2, that of 5 6 7, and the row
    /// of 10 11. The project's own.
    ///
    /// # Examples
    ///
    /// ```
    /// use ndarray_layout::{CanIndexCheckMode, Ix2, LayoutError, Order, Row, Strided};
    ///
    /// # fn main() -> Result<(), LayoutError> {
    /// let view = Strided::new(Ix2(3, 3), Ix2(5, 1), 1, 13, CanIndexCheckMode::ReadOnly)?;
    /// let mut places = view.iter_places(Order::RowMajor);
    /// assert_eq!((places.next(), places.next_back()), (Some(0), Some(12)));
    /// let numbers = |row: Row| (row.start, row.stride, row.len);
    /// let (first, rows, last) = places.into_rows_left();
    /// assert_eq!((first.map(numbers), last.map(numbers)), (Some((1, 1, 2)), Some((10, 1, 2))));
    /// assert!(rows.map(numbers).eq([(5, 1, 3)]));
    /// # Ok(())
    /// # }
    /// ```
    ///
    /// <details><summary>Contract (proved)</summary>
    ///
    /// ```text
    /// ensures places: self ≡ (places_of_row result.0 ++ rows_places result.1) ++ places_of_row result.2
    /// ensures some: All (λ row. 0 < row.len) result.1
    /// ensures views: All (λ row. IsView (row_view row)) result.1
    /// ensures first: IfSome result.0 (λ row. (0 < row.len) × IsView (row_view row))
    /// ensures last: IfSome result.2 (λ row. (0 < row.len) × IsView (row_view row))
    /// ```
    /// [How to read it](crate::contracts)
    /// </details>
    #[must_use]
    #[inline(always)]
    pub fn into_rows_left(self) -> (Option<Row>, RowsOf<A>, Option<Row>) {
        let PlacesOf { stretch, places } = self;
        let (first, rows, last) = places.into_rows_left();
        match stretch {
            Some(stretch) => {
                let (mut stretch, mut none) = (stretch, rows);
                none.advance(none.len());
                (stretch.take_row(), none, None)
            }
            None => (first, rows, last),
        }
    }

    /// Skips the next `count` places, or all that remain.
    ///
    /// Takes no memory. Costs a division and two products for each axis, however many places are left out.
    ///
    /// Of the places of `[2,3]` with strides `[5,1]` from 0, after 4 places: 6 7. What `nth` of std's iterators skips one by one.
    ///
    /// # Examples
    ///
    /// ```
    /// use ndarray_layout::{CanIndexCheckMode, Ix2, LayoutError, Order, Strided};
    ///
    /// # fn main() -> Result<(), LayoutError> {
    /// let view = Strided::new(Ix2(2, 3), Ix2(5, 1), 1, 8, CanIndexCheckMode::ReadOnly)?;
    /// let mut places = view.iter_places(Order::RowMajor);
    /// places.advance(4);
    /// assert!(places.eq([6, 7]));
    /// # Ok(())
    /// # }
    /// ```
    ///
    /// <details><summary>Contract (proved)</summary>
    ///
    /// ```text
    /// ensures self.new ≡ drop count self.old
    /// ```
    /// [How to read it](crate::contracts)
    /// </details>
    #[inline]
    pub fn advance(&mut self, count: usize) {
        match &mut self.stretch {
            Some(stretch) => stretch.advance(count),
            None => self.places.advance(count),
        }
    }

    /// Skips the last `count` places, or all that remain.
    ///
    /// Takes no memory. Costs a division and two products for each axis, however many places are left out.
    ///
    /// Of the places of `[2,3]` with strides `[5,1]` from 0, without the last 4: 0 1. What `nth_back` of std's iterators skips one by one.
    ///
    /// # Examples
    ///
    /// ```
    /// use ndarray_layout::{CanIndexCheckMode, Ix2, LayoutError, Order, Strided};
    ///
    /// # fn main() -> Result<(), LayoutError> {
    /// let view = Strided::new(Ix2(2, 3), Ix2(5, 1), 1, 8, CanIndexCheckMode::ReadOnly)?;
    /// let mut places = view.iter_places(Order::RowMajor);
    /// places.advance_back(4);
    /// assert!(places.eq([0, 1]));
    /// # Ok(())
    /// # }
    /// ```
    ///
    /// <details><summary>Contract (proved)</summary>
    ///
    /// ```text
    /// ensures self.new ≡ take (length self.old - count) self.old
    /// ```
    /// [How to read it](crate::contracts)
    /// </details>
    #[inline]
    pub fn advance_back(&mut self, count: usize) {
        match &mut self.stretch {
            Some(stretch) => stretch.advance_back(count),
            None => self.places.advance_back(count),
        }
    }
}

impl<A: SlowerAxes> Iterator for PlacesOf<A> {
    type Item = usize;

    #[inline(always)]
    fn next(&mut self) -> Option<usize> {
        match &mut self.stretch {
            Some(stretch) => stretch.next(),
            None => self.places.next(),
        }
    }

    #[inline]
    fn size_hint(&self) -> (usize, Option<usize>) {
        let left = self.len();
        (left, Some(left))
    }

    crate::arrays::fold_by_rest!();
}

impl<A: SlowerAxes> DoubleEndedIterator for PlacesOf<A> {
    #[inline]
    fn next_back(&mut self) -> Option<usize> {
        match &mut self.stretch {
            Some(stretch) => stretch.next_back(),
            None => self.places.next_back(),
        }
    }

    crate::arrays::skip_back!();
}

impl<A: SlowerAxes> ExactSizeIterator for PlacesOf<A> {
    #[inline]
    fn len(&self) -> usize {
        match &self.stretch {
            Some(stretch) => stretch.len(),
            None => self.places.len(),
        }
    }
}

impl<A: SlowerAxes> FusedIterator for PlacesOf<A> {}
