// Made by `rust/erase` of `crates/nd_lent/src/array_view/arrays.rt`: edit that.
//! Several arrays of the same items one after another, each lent for as long as the data is.

use crate::lent::nd_access::Reader;
use crate::lent::nd_lent::array_view::ArrayView;
use crate::lent::nd_lent::views::Views;
use crate::memory::AllocError;

/// Several arrays of the same items that are still to come, from both ends, each lent for as long as the data is: those
/// along an axis (`AxisIter`), its chunks (`AxisChunksIter`), or windows and chunks of a shape (`BlocksIter`).
pub struct Arrays<'a, T, V: Views> {
    pub(super) reader: Reader<'a, T>,
    pub(super) views: V,
}

impl<'a, T, V: Views> Arrays<'a, T, V> {
    /// How many arrays are left.
    ///
    /// Of the columns of `[2,3]`: 3. ndarray's `len`.
    ///
    /// # Examples
    ///
    /// ```
    /// use ndarray_layout::{ArrayView, Axis, Ix2, LayoutError};
    ///
    /// # fn main() -> Result<(), LayoutError> {
    /// let table = ArrayView::from_shape(Ix2(2, 3), &[1, 2, 3, 4, 5, 6])?;
    /// assert_eq!(table.into_axis_iter(Axis(1))?.len(), 3);
    /// # Ok(())
    /// # }
    /// ```
    ///
    /// <details><summary>Contract (proved)</summary>
    ///
    /// ```text
    /// ensures result ≡ length self.now
    /// ```
    /// [How to read it](crate::contracts)
    /// </details>
    #[must_use]
    #[inline]
    pub fn len(&self) -> usize {
        self.views.len()
    }

    /// Skips the next `count` arrays, or all that remain.
    ///
    /// Takes no memory, and no time for each of them.
    ///
    /// Of the columns of `[2,3]`, after 2 of them: the last one. What `nth` of std's iterators skips one by one.
    ///
    /// # Examples
    ///
    /// ```
    /// use ndarray_layout::{ArrayView, Axis, Ix2, LayoutError};
    ///
    /// # fn main() -> Result<(), LayoutError> {
    /// let table = ArrayView::from_shape(Ix2(2, 3), &[1, 2, 3, 4, 5, 6])?;
    /// let mut columns = table.into_axis_iter(Axis(1))?;
    /// columns.advance(2);
    /// assert_eq!(columns.next().map(|column| (column[0], column[1])), Some((3, 6)));
    /// # Ok(())
    /// # }
    /// ```
    ///
    /// <details><summary>Contract (proved)</summary>
    ///
    /// ```text
    /// ensures self.new ≡ drop count self.old
    /// ```
    /// [How to read it](crate::contracts)
    /// </details>
    #[inline]
    pub fn advance(&mut self, count: usize) {
        self.views.advance(count);
    }

    /// Skips the last `count` arrays, or all that remain.
    ///
    /// Takes no memory, and no time for each of them.
    ///
    /// Of the columns of `[2,3]`, without the last 2: the first one. What `nth_back` of std's iterators skips one by one.
    ///
    /// # Examples
    ///
    /// ```
    /// use ndarray_layout::{ArrayView, Axis, Ix2, LayoutError};
    ///
    /// # fn main() -> Result<(), LayoutError> {
    /// let table = ArrayView::from_shape(Ix2(2, 3), &[1, 2, 3, 4, 5, 6])?;
    /// let mut columns = table.into_axis_iter(Axis(1))?;
    /// columns.advance_back(2);
    /// assert_eq!(columns.next_back().map(|column| (column[0], column[1])), Some((1, 4)));
    /// # Ok(())
    /// # }
    /// ```
    ///
    /// <details><summary>Contract (proved)</summary>
    ///
    /// ```text
    /// ensures self.new ≡ take (length self.old - count) self.old
    /// ```
    /// [How to read it](crate::contracts)
    /// </details>
    #[inline]
    pub fn advance_back(&mut self, count: usize) {
        self.views.advance_back(count);
    }

    /// The next array; `None` where none is left.
    ///
    /// Takes time in proportion to the count of axes.
    ///
    /// Of the columns of `[2,2]` over 5 6 7 8: 5 7, then 6 8, then `None`. ndarray's `next`.
    ///
    /// # Errors
    ///
    /// Out of memory; never where the type fixes the count of axes or an array has at most 4. The iterator is unchanged after it.
    ///
    /// # Examples
    ///
    /// ```
    /// use ndarray_layout::{ArrayView, Axis, Ix2, LayoutError};
    ///
    /// # fn main() -> Result<(), LayoutError> {
    /// let table = ArrayView::from_shape(Ix2(2, 2), &[5, 6, 7, 8])?;
    /// let (mut columns, mut sums) = (table.into_axis_iter(Axis(1))?, vec![]);
    /// while let Some(column) = columns.try_next()? {
    ///     sums.push(column[0] + column[1]);
    /// }
    /// assert_eq!(sums, [12, 14]);
    /// # Ok(())
    /// # }
    /// ```
    ///
    /// <details><summary>Contract (proved)</summary>
    ///
    /// ```text
    /// ensures memory: All (λ array. NeedsNoMemory V.Dim.NDIM (length array.view.shape)) self.old → IsOk result
    /// ensures unchanged: IfErr result (λ _. self.new ≡ self.old)
    /// ensures first: IfOk result (λ next. MatchOption next
    ///     ((self.old ≡ []) × (self.new ≡ [])) (λ array. self.old ≡ array ∷ self.new))
    /// ```
    /// [How to read it](crate::contracts)
    /// </details>
    #[inline]
    pub fn try_next(&mut self) -> Result<Option<ArrayView<'a, T, V::Dim>>, AllocError> {
        match self.views.try_next()? {
            Some(view) => Ok(Some(ArrayView::of_reader(self.reader.copied(), view))),
            None => Ok(None),
        }
    }

    /// The last array; `None` where none is left.
    ///
    /// Takes the time of `try_next`.
    ///
    /// Of the columns of `[2,2]` over 5 6 7 8: 6 8, then 5 7, then `None`. ndarray's `next_back`.
    ///
    /// # Errors
    ///
    /// Those of `try_next`. The iterator is unchanged after one.
    ///
    /// # Examples
    ///
    /// ```
    /// use ndarray_layout::{ArrayView, Axis, Ix2, LayoutError};
    ///
    /// # fn main() -> Result<(), LayoutError> {
    /// let table = ArrayView::from_shape(Ix2(2, 2), &[5, 6, 7, 8])?;
    /// let mut columns = table.into_axis_iter(Axis(1))?;
    /// assert_eq!(columns.try_next_back()?.map(|column| (column[0], column[1])), Some((6, 8)));
    /// # Ok(())
    /// # }
    /// ```
    ///
    /// <details><summary>Contract (proved)</summary>
    ///
    /// ```text
    /// ensures memory: All (λ array. NeedsNoMemory V.Dim.NDIM (length array.view.shape)) self.old → IsOk result
    /// ensures unchanged: IfErr result (λ _. self.new ≡ self.old)
    /// ensures last: IfOk result (λ next. MatchOption next
    ///     ((self.old ≡ []) × (self.new ≡ [])) (λ array. self.old ≡ self.new ++ array ∷ []))
    /// ```
    /// [How to read it](crate::contracts)
    /// </details>
    #[inline]
    pub fn try_next_back(&mut self) -> Result<Option<ArrayView<'a, T, V::Dim>>, AllocError> {
        match self.views.try_next_back()? {
            Some(view) => Ok(Some(ArrayView::of_reader(self.reader.copied(), view))),
            None => Ok(None),
        }
    }
}
